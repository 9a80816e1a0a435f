"""What tools/make_reading reads of Rust: where a type or a trait is declared, what its paths and words mean, and the ghosts of a trait."""
import functools
import re

from sources import files, text_of
from specs import Meant, Scope, imported, is_constructor, own_crates, with_parts
from terms import Reader, nodes_of

DECLARED = re.compile(r"^(?:pub(?:\(\w+\))? )?(struct|enum|trait|type) (\w+)")
GHOST_USE = re.compile(r"^( *)ghost use [^;]*;$", re.M)
OWN = {"crate", "self", "super"}

# the types and traits of std that a file names without a `use`
PRELUDE = {"Vec", "Option", "Result", "Drop", "Send", "Sync", "Fn", "FnMut", "FnOnce"}


def types_in(text):
    """The paths in a text of Rust that end in a type or a trait."""
    return re.findall(r"(?:\b\w+::)*\b[A-Z]\w*", text)


def split_top(text):
    """The parts of a text between the commas that stand in no bracket."""
    parts, depth = [""], 0
    for sign in re.findall(r"->|=>|.", text, re.S):
        depth += (sign in "([{<") - (sign in ")]}>")
        if sign == "," and not depth:
            parts.append("")
        else:
            parts[-1] += sign
    return [part.strip() for part in parts if part.strip()]


def leaves(text, before=()):
    """The paths that a `use` names, each with the name that it gives."""
    head, brace, inner = text.partition("{")
    if brace:
        for part in split_top(inner.rpartition("}")[0]):
            yield from leaves(part, before + tuple(part for part in head.strip().split("::") if part))
    else:
        path, _, other = text.strip().partition(" as ")
        path = before + tuple(path.split("::"))
        yield other or path[-1], path


class RustFile:
    """A source file, by its crate and its path from the top on: its words of the specs, and what its `use` lines name."""

    def __init__(self, crate, path):
        self.crate, self.path, self.text = crate, path, text_of(path)
        self.lines = self.text.split("\n")
        self.scope = Scope("\n".join(use.group() for use in GHOST_USE.finditer(self.text) if not use.group(1)))
        self.uses = {}
        for use in re.findall(r"^ *(?:pub(?:\(\w+\))? )?use ([^;]*);", self.text, re.M):
            self.uses.update(leaves(use))

    def block_at(self, at):
        """The `impl` or `trait` at column 0 in which a line stands, as its head and the line of its end. None where it stands in none."""
        while at >= 0 and not re.match(r"(?:pub(?:\(\w+\))? )?(?:impl|trait)\b", self.lines[at]):
            at -= 1
        if at < 0:
            return "", 0, 0
        end = self.lines.index("}", at)
        return "\n".join(self.lines[at:end]).partition("{")[0], at, end

    def scope_at(self, at):
        """The words of the specs that a line may use."""
        _, start, end = self.block_at(at)
        return self.scope.joined(Scope("\n".join(self.lines[start:end]))) if start < at <= end else self.scope


@functools.lru_cache(maxsize=None)
def rust_file(crate, path):
    return RustFile(crate, path)


@functools.lru_cache(maxsize=None)
def declared_in(crate):
    """The types and traits of a crate: the file and the line of each name; and the file and the line at which it has its value."""
    items, values = {}, {}
    for file in files(crate, "src", ".rt"):
        source = rust_file(crate, "crates/%s/%s" % (crate, file))
        for at, line in enumerate(source.lines):
            found, value = DECLARED.match(line), re.match(r"    ghost Value = ", line)
            if found:
                items.setdefault(found.group(2), (source, at, found.group(1)))
            if value:
                values[re.search(r"\bModel for (\w+)", source.block_at(at)[0]).group(1)] = (source, at)
    return items, values


def item(crate, name):
    """Where a crate declares a type or trait, also where it takes it from another one: `(file, line, kind)`. Else None."""
    items, _ = declared_in(crate)
    if name in items:
        return items[name]
    path = rust_file(crate, "crates/%s/src/lib.rt" % crate).uses.get(name, ("",))
    return item(path[0], path[-1]) if path[0] in own_crates() else None


def rust_meant(source, path):
    """What a path of Rust stands for in a file: `("type", crate, name)`, or `("named", "std", name)`. None where it is not found."""
    parts = path.split("::")
    if parts[0] in source.uses:
        parts = [*source.uses[parts[0]], *parts[1:]]
    elif len(parts) == 1 and parts[0] in declared_in(source.crate)[0]:
        parts = ["crate", *parts]
    crate = source.crate if parts[0] in OWN else parts[0]
    if crate in own_crates() and item(crate, parts[-1]):
        return "type", crate, parts[-1]
    if len(parts) == 1:
        return ("named", "std", path) if path in PRELUDE else None
    return "named", crate, parts[-1]


def brackets_of(head):
    """What stands in the angle brackets after the name of a head, and where they end; of a head without them, where its name ends."""
    opened, depth = re.search(r"\b(?:(?:fn|struct|enum|trait|type) \w+|impl\b)(<?)", head), 0
    for at in range(opened.start(1), len(head) if opened.group(1) else 0):
        depth += (head[at] == "<") - (head[at] == ">" and head[at - 1] not in "-=")
        if not depth:
            return head[opened.end():at], at + 1
    return "", opened.end()


def generics_of(head):
    """The generics of a head, each with its bounds."""
    found = {}
    for part in split_top(brackets_of(head)[0]):
        name, _, bounds = part.partition(":")
        found[name.split()[-1]] = types_in(bounds)
    where = re.search(r"\bwhere\b(.*)", head, re.S)
    for part in split_top(where.group(1)) if where else ():
        name, _, bounds = part.partition(":")
        found.setdefault(name.strip(), []).extend(types_in(bounds))
    return found


def ghosts_of(source, at):
    """The ghosts of a trait by their names, each with its lines and what is said of it; of its laws, which begin with the values that they
    speak of, the names alone."""
    members, said, end = {}, [], source.lines.index("}", at)
    while at < end:
        at += 1
        line = source.lines[at]
        found = re.match(r"    ghost (?!use\b)(\w+): \{ (\(?)", line)
        if line.startswith("    ///"):
            said.append(line)
        elif found:
            start = at
            while not source.lines[at].endswith(";"):
                at += 1
            members[found.group(1)] = [] if found.group(2) else said + source.lines[start:at + 1]
            said = []
        elif line.strip():
            said = []
    return members


def above_of(head):
    """The traits that a trait stands on, as its head names them."""
    return head[brackets_of(head)[1]:]


def bound_meant(source, path):
    """What a trait stands for that is a bound, or above another trait: it is named alone."""
    kind, crate, name = rust_meant(source, path) or ("named", "std", path)
    return "named", item(crate, name)[0].crate if kind == "type" else crate, name


def bounding(source, generics, head, ghost):
    """The trait that bounds a generic and has a ghost of this name, or that is named so."""
    traits = list(generics.get(head, ()))
    for trait in traits:
        kind, crate, name = rust_meant(source, trait) or ("named", "std", trait)
        if name == ghost:
            return kind, crate, name
        if kind == "type":
            source, at, _ = item(crate, name)
            if ghost in ghosts_of(source, at):
                return kind, crate, name
            traits += types_in(above_of(source.lines[at]))
    return "named", "std", ghost


def free_words(source, at, text, bound, generics):
    """What the words of a clause or of a ghost mean, in order; of a quote, `⟦<Type<D> as Trait>⟧`, its type and its trait."""
    scope, text = source.scope_at(at), re.sub(r"⟦<(\w+).*? as (\w+)>⟧", r"(\1 \2)", text)
    parts = with_parts(scope.names)
    reader = Reader(lambda name: is_constructor(scope, parts, name))
    reader.read(nodes_of(text), set(bound))
    for name in reader.found:
        head, _, rest = name.partition(".")
        one = imported(scope, parts, name)
        if one:
            yield one
        elif head in generics:
            yield from [Meant(name, bounding(source, generics, head, rest.split(".")[0]))] if rest else []
        else:
            yield Meant(name, rust_meant(source, head) if re.match("[A-Z]", head) else None)
