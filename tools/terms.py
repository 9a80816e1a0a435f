"""The words of a term of the specs that nothing in the term binds. A word is bound by `(x y : T)`, `λ x.`, `let x =`, `x ← ..`, or as a
variable in the pattern of a function by cases; it is bound up to the end of the brackets that it stands in."""
import re

TOKEN = re.compile(r'"[^"]*"|[(){};,]|[^\s(){};,"]+')
CLOSED_BY = {"(": ")", "{": "}", "[": "]"}

# what is no word: signs of the language, and types that it has from itself
SIGNS = {"→", "=", ":", ".", ",", ";", "_", "×", "in", "do", "record", "where", "pub", "Type", "Unit", "⊥", "tt", "elim"}


class Group(list):
    """What stands between two brackets."""

    def __init__(self, opened, nodes):
        super().__init__(nodes)
        self.opened = opened


def without_comments(text):
    return re.sub(r"(?m)(?:^|(?<=\s))--(?: .*)?$", "", text)


def tokens(text):
    for token in TOKEN.findall(without_comments(text)):
        if len(token) > 1 and token.endswith(".") and not token.startswith('"'):
            yield from (token[:-1], ".")
        else:
            yield token


def nodes_of(text):
    """The tokens of a term, with a Group for each pair of brackets."""
    open_now = [[]]
    for token in tokens(text):
        if token in CLOSED_BY:
            open_now.append(Group(token, []))
        elif len(open_now) > 1 and token == CLOSED_BY[open_now[-1].opened]:
            group = open_now.pop()
            open_now[-1].append(group)
        else:
            open_now[-1].append(token)
    while len(open_now) > 1:
        group = open_now.pop()
        open_now[-1].append(group)
    return open_now[0]


def is_name(node):
    return not isinstance(node, Group) and node not in SIGNS and not re.match(r'["\d.]', node)


def binder(group):
    """How many names a bracket binds, as `(x y : T)` does."""
    count = 0
    while count < len(group) and is_name(group[count]) and group[count] != "let":
        count += 1
    return count if count and group[count:count + 1] == [":"] else 0


class Reader:
    """Gathers the free words of terms, in the order in which they stand. `is_word` tells of a name in a pattern whether it is a
    word, and no variable."""

    def __init__(self, is_word):
        self.is_word, self.found = is_word, []

    def name(self, node, bound):
        if is_name(node) and node.split(".")[0] not in bound:
            self.found.append(node)

    def group(self, group, bound):
        """Reads what is in brackets, and gives the names that they bind for what comes after them."""
        if group.opened == "[":
            self.cases(group, bound)
            return set()
        count = binder(group)
        self.read(group[count:], bound, group.opened == "{")
        return set(group[:count])

    def cases(self, group, bound):
        """Reads the cases of an `elim`: `[ | pattern ↦ term | .. ]`."""
        starts = [at for at, node in enumerate(group) if node == "|"] + [len(group)]
        for start, end in zip(starts, starts[1:]):
            arrow = group.index("↦", start)
            self.read(group[arrow + 1:end], bound | self.pattern(group[start + 1:arrow], bound))

    def pattern(self, nodes, bound):
        """Reads a pattern, and gives its variables."""
        variables = set()
        for at, node in enumerate(nodes):
            if isinstance(node, Group) and binder(node):
                variables |= self.group(node, bound)
            elif isinstance(node, Group):
                variables |= self.pattern(node, bound)
            elif nodes[at + 1:at + 2] != ["="] and is_name(node):
                if self.is_word(node):
                    self.found.append(node)
                else:
                    variables.add(node)
        return variables

    def read(self, nodes, bound, braces=False):
        """Reads a term, and gives the names that are bound at its end. In braces `x =` names a field."""
        before, at = bound, 0
        while at < len(nodes):
            node, after = nodes[at], nodes[at + 1:at + 2]
            if isinstance(node, Group):
                bound = bound | self.group(node, bound)
            elif node == "λ":
                end = nodes.index(".", at)
                bound = bound | self.pattern(nodes[at + 1:end], bound)
                at = end
            elif node == "let" or after == ["←"]:
                bound = bound | {nodes[at + (node == "let")]}
                at += 1
            elif node == ";":
                bound = before
            elif not (braces and after == ["="]):
                self.name(node, bound)
            at += 1
        return bound
