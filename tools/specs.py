"""What tools/make_reading reads of the files of specs/: their definitions, and what each word of a definition stands for."""
import functools
import os
import re

from sources import ROOT, crates, meaning_over, text_of
from terms import Reader, nodes_of

KEYWORDS = {"abbrev", "pub", "record", "unfoldable", "data"}
USE = re.compile(r"^ *(?:ghost |pub )*use +([\w.]+?)(?:\.\{([^}]*)\}| as (\w+));?$", re.M)

# words of the kit, beside the signs, that begin as variables do and are constructors
CONSTRUCTORS = {"zero", "suc", "true", "false", "inl", "inr", "refl", "some", "none"}


class Scope:
    """The words that the `use` lines of a text give: each name, and each other name of a module."""

    def __init__(self, text):
        self.names, self.modules = {}, {}
        for path, names, other in USE.findall(text):
            if other:
                self.modules[other] = path
            for name in names.split(","):
                if name.strip():
                    self.names[name.split()[-1]] = (path, name.split()[0])

    def joined(self, other):
        both = Scope("")
        both.names, both.modules = {**self.names, **other.names}, {**self.modules, **other.modules}
        return both


def with_parts(names):
    """The names, and for each name with holes, as `◌++◌`, its parts."""
    found = {name: name for name in names}
    for name in names:
        for part in name.split("◌") if "◌" in name else []:
            if part:
                found.setdefault(part, name)
    return found


def is_constructor(scope, parts, name):
    """Whether a name in a pattern is a word that a scope has: one of a module with another name, an operator, or a constructor."""
    head, _, rest = name.partition(".")
    if rest:
        return head in scope.modules
    whole = parts.get(name)
    return whole in scope.names and ("◌" in whole or name in CONSTRUCTORS or not name[0].islower() or ".TheVariants" in scope.names[whole][0])


def is_closed(text):
    """Whether each bracket of a text is closed."""
    return sum(map(text.count, "({[")) == sum(map(text.count, ")}]"))


class Definition:
    """A definition of a file of specs: its name, those of its constructors, its text, and its line of meaning."""

    def __init__(self, path, name, words, lines, meaning, module):
        self.path, self.name, self.words, self.lines = path, name, words, lines
        self.meaning, self.module = meaning, module
        self.indent = len(lines[0]) - len(lines[0].lstrip())
        self.constructors = [item.split()[0] for item in self.items()[1:]] if "data" in words else []

    def is_fact(self):
        """Whether it is proved and no definition: nothing unfolds it."""
        return set(self.words) <= {"pub"}

    def items(self):
        """Its head, and then its cases, fields or constructors, each with the lines that go on with it."""
        inner, items = self.indent, []
        if {"record", "data"} & set(self.words):
            end = next((at for at, line in enumerate(self.lines) if re.search(r"\bwhere$", line)), len(self.lines) - 1)
            items, rest = ["\n".join(self.lines[:end + 1])], self.lines[end + 1:]
            inner = len(rest[0]) - len(rest[0].lstrip()) if rest else 0
        else:
            items, rest = [self.lines[0]], self.lines[1:]
        for line in rest:
            if not line.strip() or line.lstrip().startswith("--"):
                continue
            if len(line) - len(line.lstrip()) == inner and is_closed(items[-1]):
                items.append(re.sub(r"^\s*pub ", "", line))
            else:
                items[-1] += "\n" + line
        return items

    def free(self, is_word):
        """The words of its text that it does not bind, in order."""
        reader = Reader(is_word)
        bound = reader.read(nodes_of(self.module or ""), set())
        items = [nodes_of(item) for item in self.items()]
        bound_by_head = reader.read(items[0][len(self.words) + 1:], bound)
        for item in [] if self.is_fact() else items[1:]:
            if {"record", "data"} & set(self.words):
                colon = item.index(":")
                reader.read(item[colon:], bound_by_head)
                if "record" in self.words:
                    bound_by_head = bound_by_head | set(item[:colon])
            else:
                equals = item.index("=")
                reader.read(item[equals:], bound | reader.pattern(item[:equals], bound))
        return reader.found


class SpecFile:
    """A file of specs, by its path from the top of the project on."""

    def __init__(self, path):
        self.path, text = path, text_of(path)
        self.lines, self.scope, self.definitions = text.split("\n"), Scope(text), {}
        heads = list(self.heads())
        ends = [at for at, *_ in heads[1:]] + [len(self.lines)]
        for (at, indent, words, name, module), end in zip(heads, ends):
            lines = self.body(at, end, indent)
            made = Definition(path, name, words, lines, meaning_over(self.lines, at, indent), module)
            for known in [name] + made.constructors:
                self.definitions.setdefault(known, made)
        self.parts = with_parts([*self.definitions, *self.scope.names])

    def heads(self):
        """The line at which each definition begins, with its indent, its keywords, its name, and the module that it is in."""
        module, last = None, None
        for at, line in enumerate(self.lines):
            if line and not line.startswith((" ", "--")):
                module = self.module_at(at) if line.startswith("module ") else None
            indent = "  " if module is not None else ""
            if not line.startswith(indent) or line[len(indent):len(indent) + 1] in ("", " "):
                continue
            parts = line.split()
            words = [part for part in parts[:4] if part in KEYWORDS]
            if words and parts[:len(words)] == words:
                last = parts[len(words)]
                if last not in ("use", "mod"):
                    yield at, indent, words, last, module
            elif parts[0] != last and parts[1:2] == [":"]:
                last = parts[0]
                yield at, indent, [], last, module

    def module_at(self, at):
        """The parameters of a module, whose head may take several lines."""
        end = next(k for k in range(at, len(self.lines)) if self.lines[k].endswith(" where"))
        return " ".join(line.strip() for line in self.lines[at:end + 1])[len("module _ "):-len(" where")]

    def body(self, at, end, indent):
        """The lines of a definition, without what stands over the next one."""
        lines = self.lines[at:end]
        outer = next((k for k, line in enumerate(lines) if line.startswith(("module ", "use ", "infix"), len(line) - len(line.lstrip()))), len(lines))
        lines = lines[:outer]
        while not lines[-1].strip() or re.match(r" {0,%d}--" % len(indent), lines[-1]):
            lines.pop()
        return lines

    def is_word(self, name):
        """Whether a name in a pattern is a word, and no variable. The word that is being defined needs not be one."""
        made = self.definitions.get(self.parts.get(name))
        return name in made.constructors if made else is_constructor(self.scope, self.parts, name)


@functools.lru_cache(maxsize=None)
def spec_file(path):
    return SpecFile(path)


@functools.lru_cache(maxsize=None)
def own_crates():
    return set(crates())


def target(path, name):
    """What a word of a module stands for: a definition, `("type", crate, name)` of Rust, or `("named", crate, word)` where it is not
    printed. None where it is not found."""
    parts = path.split(".")
    if parts[0] != "Rattle" or parts[1] not in own_crates():
        return "named", parts[1 if parts[0] == "Rattle" else 0], name
    crate, rest = parts[1], parts[3:]
    if parts[2] != "specs" or rest[0] == "contracts" or "TheInside" in rest:
        return "named", ".".join(parts[1:]), name
    if rest[0] == "declared":
        return "type", crate, [part for part in rest[1:] if not part.startswith("The")][-1]
    while rest:
        file = "crates/%s/specs/%s.antt" % (crate, "/".join(rest))
        if os.path.exists(os.path.join(ROOT, file)):
            return meant(spec_file(file), name).stands_for
        rest = rest[:-1]
    return None


class Meant:
    """What a word stands for, beside how it is written, and the name that it was imported by."""

    def __init__(self, written, stands_for, own=None):
        self.written, self.stands_for, self.own = written, stands_for, own or written


def imported(scope, parts, name):
    """What a word of a scope means: one that is imported, or one of a module with another name. Else None."""
    head, _, rest = name.partition(".")
    if rest and head in scope.modules:
        word = rest.split(".")[0]
        one = target(scope.modules[head], word)
        if isinstance(one, tuple) and one[0] == "named":
            one = (*one[:2], "%s.%s" % (scope.modules[head].split(".")[-1], word))
        return Meant("%s.%s" % (head, word), one)
    whole = parts.get(head)
    return Meant(whole, target(*scope.names[whole]), scope.names[whole][1]) if whole in scope.names else None


def meant(spec, name):
    """What a word that a file of specs does not bind means there."""
    whole = spec.parts.get(name.split(".")[0])
    if whole in spec.definitions:
        return Meant(whole, spec.definitions[whole])
    return imported(spec.scope, spec.parts, name) or Meant(name, None)
