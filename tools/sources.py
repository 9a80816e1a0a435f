"""What the scripts of this folder read of the sources: functions with their clauses, and the words of the specs."""
import os
import re

ROOT = os.path.dirname(os.path.dirname(os.path.abspath(__file__)))
LINK = re.compile(r"\[([^\]]*)\]\(([^)\s]+)\)")
WORD = r"(?:(?:abbrev|pub|record|unfoldable|data) )+"


def text_of(*path):
    with open(os.path.join(ROOT, *path), encoding="utf-8") as file:
        return file.read()


def crate_rows():
    """The rows of crates.txt: the layer that is over each, or None, its crate, the libraries that this uses, and those of them
    that its code does not name."""
    layer = None
    for line in text_of("crates.txt").splitlines():
        heading, row = re.match(r"# Layer: (.*)", line), re.match(r"(\w+):([^#]*)(.*)", line)
        layer = heading.group(1) if heading else layer
        if row:
            yield layer, row.group(1), row.group(2).split(), row.group(3).partition("proofs alone:")[2].split()


def crates():
    """The names of the crates, in the order of crates.txt: each after all that it uses, and then those that it does not name."""
    named = [name for _, name, _, _ in crate_rows()]
    there = sorted(os.listdir(os.path.join(ROOT, "crates")))
    return [name for name in named if name in there] + [name for name in there if name not in named]


def files(crate, folder, ending):
    """The files of a crate's folder, as paths from the crate on."""
    top = os.path.join(ROOT, "crates", crate)
    for at, folders, names in os.walk(os.path.join(top, folder)):
        folders.sort()
        for name in sorted(names):
            if name.endswith(ending):
                yield os.path.relpath(os.path.join(at, name), top)


def bare(header):
    """A line without what stands in angle brackets."""
    while re.search(r"<[^<>]*>", header):
        header = re.sub(r"<[^<>]*>", "", header)
    return header


def block_around(text, at):
    """Of the `impl` or `trait` that a place is in: whether it is one of a trait, and the name of the type or trait."""
    found = list(re.finditer(r"^(?:pub(?:\(\w+\))? )?(?:trait|impl|mod)\b[^{]*", text[:at], re.M))
    if not found:
        return False, None
    header = bare(found[-1].group(0).replace("->", ""))
    names = re.findall(r"(?:trait|impl|for)\s+(?:\w+::)*([A-Z]\w*)", header)
    return "trait " in header or " for " in header, names[-1] if names else None


def head_of(text, at, indent):
    """The lines of the function that begins at a place, up to its body. The doc comments over its clauses are among them."""
    rest = text[at:]
    bare_rest = re.sub(r"^ *//.*$", lambda line: " " * len(line.group(0)), rest, flags=re.M)
    # without clauses the body begins at the end of the signature's last line
    plain = re.match(r"(?:(?!^ *(?:requires|ensures|decreases|ghost)\b|^%s\{).*\n)*?.*(?= \{(?:.*\})?$)" % indent, bare_rest, re.M)
    if plain and not re.search(r"^ *(?:requires|ensures|decreases|ghost)\b|^%s\{|\S;$" % indent, plain.group(0), re.M):
        return rest[:plain.end()]
    end = re.search(r"^%s\{|(?<=\S);$" % indent, bare_rest, re.M)
    return rest[:end.start()] if end else rest


def placed_signatures(text, name=r"\w+"):
    """The functions of this name, by default all: where it begins, whether it is `pub` or one of a trait, the type or trait that it
    belongs to, its name, and the lines up to the body, without comments."""
    for found in re.finditer(r"^( *)((?:pub(?:\(\w+\))? )?(?:const )?)fn (%s)\b" % name, text, re.M):
        of_trait, owner = block_around(text, found.start()) if found.group(1) else (False, None)
        lines = re.sub(r"^ *///.*\n", "", head_of(text, found.start(), found.group(1)), flags=re.M)
        yield found.start(), found.group(2).startswith("pub ") or of_trait, owner, found.group(3), lines


def signatures(text, name=r"\w+"):
    """The same without their places."""
    return (rest for _, *rest in placed_signatures(text, name))


def clause_in(lines, clause):
    """A clause among the lines of a signature, as it stands; the text in its braces is group 1. The only clause of a function has no name."""
    name = "" if clause is None else clause + " "
    # a clause may go on in the lines after it, up to the next one
    return re.search(r"^ *ensures %s\{ (.*?)(?=\n\s*(?:ensures|requires|decreases)\b|\Z)" % name, lines, re.M | re.S)


def rows_of(text, head):
    """The rows of a page's tables, each with its line number, but for the first one, which begins so."""
    for number, row in enumerate(text.splitlines(), 1):
        if row.startswith("| ") and not row.startswith("| " + head):
            yield number, row


def cells_of(row):
    return [cell.strip() for cell in row.strip().strip("|").split(" | ")]


def clauses_named(cell):
    """The names of clauses in a cell of a row; None for the only one."""
    return [None] if cell == "the only one" else [one.strip("`") for one in cell.split(", ")]


def public_types(crate):
    return set(re.findall(r"^pub (?:struct|enum|trait) (\w+)", "\n".join(text_of("crates", crate, file) for file in files(crate, "src", ".rt")), re.M))


class Word:
    """A public word of the specs: its crate, its file from the crate on, and the line of meaning over it, which may be none."""

    def __init__(self, crate, file, name, meaning):
        self.crate, self.file, self.name, self.meaning = crate, file, name, meaning


def meaning_over(lines, at, indent):
    """The lines of comment that stand right over a line, as one text."""
    at -= 1
    while at >= 0 and re.match(r"infix[lr]? ", lines[at]):
        at -= 1
    said = []
    while at >= 0 and lines[at].startswith(indent + "-- ") and not lines[at].startswith(indent + "-- ----"):
        said.insert(0, lines[at].strip()[3:].strip())
        at -= 1
    return " ".join(said)


def words(crate):
    """The public words of a crate's specs, those of a module with parameters among them."""
    for file in files(crate, "specs", ".antt"):
        lines, indent = text_of("crates", crate, file).split("\n"), ""
        for at, line in enumerate(lines):
            if line and not line.startswith((" ", "--")):
                indent = "  " if line.startswith("module ") else ""
            found = re.match(r"%s(%s)(\S+)" % (indent, WORD), line)
            if found and "pub" in found.group(1).split() and found.group(2) not in ("use", "mod"):
                yield Word(crate, file, found.group(2), meaning_over(lines, at, indent))
