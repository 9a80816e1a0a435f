"""What a clause or a definition stands on: the definitions of its words, in an order in which each comes after those that it uses."""
import functools

from declared_types import Declared, bare, declared
from specs import meant, spec_file


class Word:
    """A word of a text: how it is written, the name that it was imported by, and the definition that it stands for; or, where no page
    prints that, its crate and its name there. Of a word that was not found, the crate is None."""

    def __init__(self, one):
        self.written, self.own, self.definition, self.crate, self.name = one.written, one.own, None, None, one.written
        kind, crate, name = one.stands_for if isinstance(one.stands_for, tuple) else (None, None, one.written)
        self.definition = declared(crate, name) if kind == "type" else None if kind or not one.stands_for else one.stands_for
        if kind and not self.definition:
            self.crate, self.name = crate, name

    def is_known(self):
        return self.definition is not None or self.crate is not None


def words_of(node):
    """The words of a definition, in order."""
    return [Word(one) for one in node.meant] if isinstance(node, Declared) and node.ghosts else words_written(node)


@functools.lru_cache(maxsize=None)
def words_written(node):
    """The words of a definition that has the same ones on each page."""
    if isinstance(node, Declared):
        return [Word(one) for one in node.meant]
    spec = spec_file(node.path)
    return [Word(meant(spec, name)) for name in node.free(spec.is_word)]


def is_in_place(node):
    """Whether a page has, in place of a type, what this stands for."""
    return isinstance(node, Declared) and node.stands_for is not None


def in_place(words):
    """The words, and those of what some of them stand for."""
    for word in words:
        yield word
        if is_in_place(word.definition):
            yield from in_place(words_of(word.definition))


def definitions_of(words):
    """The definitions of some words: of a type that stands for something those of that."""
    return list(dict.fromkeys(word.definition for word in in_place(words) if word.definition and not is_in_place(word.definition)))


def in_order(starts):
    """All definitions that these stand on, themselves among them: groups of those that use one another, each after what it uses."""
    order, index, low, open_now = [], {}, {}, []

    def visit(node):
        index[node] = low[node] = len(index)
        open_now.append(node)
        for used in definitions_of(words_of(node)):
            if used not in index:
                visit(used)
                low[node] = min(low[node], low[used])
            elif used in open_now:
                low[node] = min(low[node], index[used])
        if low[node] == index[node]:
            at = open_now.index(node)
            order.append(open_now[at:])
            del open_now[at:]

    for start in starts:
        if start not in index:
            visit(start)
    return order


def place_of(node):
    """A definition's file, from the crates on."""
    return node.path[len("crates/"):]


def said_of(word, twice):
    """What a page has to say of a word that is not written as the page heads it: the word, and what it is. `twice` are the names of
    definitions that others have too."""
    one, written = word.definition, word.written.rpartition("::")[2]
    before, dot, after = written.partition(".")
    if one is None:
        above, _, last = word.name.rpartition(".")
        if dot and after == last and before != above:
            return before, "`%s` of %s" % (above, word.crate)
        if dot or word.name == written:
            return (written, "of %s" % word.crate) if written in twice else None
        return written, "`%s` of %s" % (word.name, word.crate)
    if dot and after in one.constructors:
        return None if before == one.name else (before, "`%s`" % one.name)
    if dot and isinstance(one, Declared):
        return None if after == one.name else (written, "of `%s`" % one.name)
    if dot:
        return written, "of " + place_of(one)
    if word.own == "Ghosts":
        return written, "of `%s`" % one.name
    if word.own != word.written:
        return written, "`%s`%s" % (word.own, " of `%s`" % one.name if word.own != one.name else "")
    return (written, "of " + place_of(one)) if written == one.name and one.name in twice else None


def remarks(words, twice, without=None):
    """The sentence on the words of a text that are not written as they are headed, or nothing. A definition needs none on itself."""
    by_what = {}
    for word in words:
        said = said_of(word, twice) if without is None or word.definition is not without else None
        if said:
            by_what.setdefault(said[1], {})["`%s`" % said[0]] = True
    said = ["%s %s %s" % (", ".join(names), "are" if len(names) > 1 else "is", what) for what, names in by_what.items()]
    return "Here %s.\n\n" % "; ".join(said) if said else ""


def seen_as(words):
    """The sentence on the types that some words name and that stand for something, or nothing."""
    placed = list(dict.fromkeys(word.definition for word in in_place(words) if is_in_place(word.definition)))
    seen = ["[`%s`](../../../%s) as `%s`" % (bare(one.head), one.path, one.stands_for) for one in placed]
    return "Clauses see %s.\n\n" % ", ".join(seen) if seen else ""
