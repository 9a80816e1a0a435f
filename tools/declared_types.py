"""Types and traits as a page of tools/make_reading prints them: the code, the value to clauses, and the ghosts that the page names."""
import re

from rust_types import DECLARED, above_of, bound_meant, brackets_of, declared_in, free_words, generics_of, ghosts_of, item, rust_meant, types_in
from specs import Meant

# the traits that were met
TRAITS = []


def show_ghosts(names):
    """A page names the ghosts of traits that are called so, and no others."""
    for trait in TRAITS:
        trait.show(names)


class Declared:
    """A type or a trait as a page prints it: its file, its line of meaning, what is said before its code, the code, and what its words
    stand for."""

    def __init__(self, source, at, kind, name):
        self.source, self.at, self.name, self.path = source, at, name, source.path
        self.meaning = said_over(source.lines, at)
        # of a type that is another one by name, or that clauses see as another value: that one
        self.stands_for = None
        self.constructors = []
        # of a trait: its ghosts, by name
        self.ghosts = {}
        self.head = source.lines[at].partition("{")[0].strip().rstrip(";")
        self.generics = generics_of(source.lines[at])
        value = declared_in(source.crate)[1].get(name)
        if kind == "trait":
            self.of_trait()
        elif value:
            self.of_value(*value)
        elif kind == "type":
            self.of_code()
            self.stands_for = source.lines[at].partition("=")[2].strip(" ;")
        else:
            self.of_code()

    def of_trait(self):
        self.all_ghosts = ghosts_of(self.source, self.at)
        self.ghosts = {name: lines for name, lines in self.all_ghosts.items() if lines}
        self.note = "What the page names of `%s`. Its calls and laws are in the file." % self.head
        TRAITS.append(self)
        self.show(())

    def show(self, names):
        """Of a trait: a page names these ghosts, or others that these name."""
        shown = [name for name in self.ghosts if name in names]
        bound = {"Self", *self.all_ghosts, *self.generics}
        while True:
            text = "\n".join(line for name in shown for line in self.ghosts[name])
            named = [name for name in self.ghosts if name in shown or re.search(r"(?<![\w.'])%s(?![\w'])" % name, re.sub(r"//.*", "", text))]
            if named == shown:
                break
            shown = named
        self.shown = shown
        self.blocks = [[]]
        for name, lines in self.all_ghosts.items():
            if name in shown:
                self.blocks[-1] += [""] * bool(self.blocks[-1]) + lines
            elif self.blocks[-1]:
                self.blocks.append([])
        self.blocks = [run for run in self.blocks if run]
        self.meant = [Meant(path, bound_meant(self.source, path)) for path in types_in(above_of(self.head))]
        self.read_ghosts(self.source, self.at + 1, text, bound, {})

    def of_value(self, source, at):
        end = at
        while not source.lines[end].endswith("};"):
            end += 1
        generics = generics_of(source.block_at(at)[0])
        text = "\n".join(source.lines[at:end + 1])
        self.path, self.blocks, self.note, self.meant = source.path, [], "", []
        self.stands_for = " ".join(text.partition("{")[2].rpartition("}")[0].split())
        self.read_ghosts(source, at, text, set(generics), generics)

    def of_code(self):
        lines, end = self.source.lines, self.at
        while not re.search(r"(?:^\}|^\);|;)$" if end > self.at else r"[;}]$", lines[end]):
            end += 1
        code = lines[self.at:end + 1]
        self.note, self.blocks = "", [code]
        fields = set(re.findall(r"^    (?:pub(?:\(\w+\))? )?(\w+):", "\n".join(code), re.M))
        ghosts = re.compile(r"^ *(?:pub(?:\(\w+\))? )?ghost \w+: \{.*?\},$", re.M | re.S)
        rust = re.sub(r"//.*|#\[.*\]$", "", ghosts.sub("", "\n".join(code)), flags=re.M)
        if "enum " in self.head:
            self.constructors = re.findall(r"^    (\w+)", rust, re.M)
            rust = re.sub(r"^    \w+", "", rust, flags=re.M)
        self.meant = [Meant(path, bound_meant(self.source, path)) for bounds in self.generics.values() for path in bounds]
        for path in types_in(rust[brackets_of(rust)[1]:]):
            if path not in self.generics and path != self.name:
                self.meant.append(Meant(path, rust_meant(self.source, path)))
        for ghost in ghosts.findall("\n".join(code)):
            self.read_ghosts(self.source, self.at, ghost, fields | set(self.generics), self.generics)

    def read_ghosts(self, source, at, text, bound, generics):
        """Reads the terms in braces of some ghosts."""
        text = re.sub(r"//.*", "", text)
        for nodes in re.findall(r"\{((?:[^{}]|\{[^{}]*\})*)\}", text):
            self.meant += free_words(source, at, nodes, bound - set(generics), generics)


def bare(head):
    """The name of a type with its generics, without their bounds."""
    names = list(generics_of(head))
    return re.findall(r"(?:struct|enum|type) (\w+)", head)[0] + ("<%s>" % ", ".join(names) if names else "")


def said_over(lines, at):
    """The first paragraph of the comment over a line of Rust."""
    said = []
    while lines[at - 1].startswith(("///", "#[")):
        at -= 1
        said.insert(0, lines[at][3:].strip() if lines[at].startswith("///") else None)
    said = [line for line in said if line is not None]
    return " ".join(said[:said.index("")] if "" in said else said)


DECLARED_AT = {}


def declared(crate, name):
    """The type or trait that a crate has under a name, or None. It is one, from whichever crate it is taken."""
    found = item(crate, name)
    if found and found not in DECLARED_AT:
        DECLARED_AT[found] = Declared(*found, re.search(DECLARED, found[0].lines[found[1]]).group(2))
    return DECLARED_AT.get(found)
