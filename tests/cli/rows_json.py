"""Rows with --json: each answer and each fault as an object, with the values of the text's row."""
import re

from holders import HELD
from images import image, superblock
from json_text import are_json, is_json
from rows import BAD_QUEUES, BAD_SUPERS, BASIC, CLEAN, CLEARED, FOUR, FULL, HANDLE, MADE, OLD, OUT_OF_RANGE, PICTURE, PLANS, RECOVERED, ROWS, SMALL, THREE, TWO_COPIES
from rows import FOLDER, MISSING, WIDENED, WRITE, queue, row
from rows_load import LOADED
from rows_words import begins  # (the rows over words come before)


def said(kind, **members):
    return is_json(kind, members)


def fault(name, *numbers, file=None, reason=None, hint=None, system=None):
    """A fault of this name; what it says is the name and its numbers where no other is given, and what to do is some text where none is; the system's reason is
    there where one is given."""

    def judge(text):
        found = re.search(r'"hint":"((?:[^"\\]|\\.)+)"(?:,"system":"[^"]*")?\}\n$', text)
        value = dict(fault=name, numbers=list(numbers), file=file, reason=reason or " ".join([name, *map(str, numbers)]), hint=hint or (found and found.group(1)))
        return bool(found) and is_json("fault", {**value, **({"system": system} if system else {})})(text)

    return judge


def recovered(transactions, copies, revoked, next, backup=False, **more):
    return said("recover", transactions=transactions, copies=copies, revoked=revoked, next=next, backup=backup, **more)


# ---- reports -----------------------------------------------------------------------------------------------------------------

row(BASIC + " --json", 0, said("format", formatted=True, limit=8), after={"a": MADE})
row("recover a --json", 0, recovered(1, 1, 0, 4), files={"a": FULL}, after={"a": RECOVERED})
row("--json recover a", 0, recovered(0, 0, 0, 4), files={"a": RECOVERED})
row("recover a --json --dry-run", 0, recovered(1, 1, 0, 4), files={"a": FULL})
row("recover a --dry-run --list --json", 0, recovered(1, 2, 0, 4, homes=[5, 6]), files={"a": image(superblock(2, 1), TWO_COPIES)})
row("recover a --dry-run --list --json", 0, recovered(0, 0, 0, 4, homes=[]), files={"a": RECOVERED})
row("renumber a --json", 0, said("renumber", renumbered=True, blocks=2, next=1), files={"a": image(CLEAN, OLD)}, after={"a": image(superblock(0), CLEARED)})
row("widen a --json", 0, said("widen", widened=True, limit=8), files={"a": image(SMALL, OLD)}, after={"a": WIDENED})
row("widen a --json", 0, said("widen", widened=False, limit=8), files={"a": WIDENED})
row("--json cost -", 0, said("cost", cost=7, limit=7, fits=True), stdin=queue(THREE, 7))
row("cost q --json", 1, said("cost", cost=7, limit=6, fits=False), files={"q": queue(THREE, 6)})
row("--json", 0, said("cost", cost=7, limit=7, fits=True), stdin=queue(THREE, 7))


def number_of(word):
    return None if word == "none" else int(word)


for handles, limit, cert in PLANS:
    text = b"bs 1024\nlimit 8\nh\n" if handles is None else queue(handles, limit)
    prices, cut, total = [line.split()[1:] for line in (cert + "total none\n").splitlines()[:3]]
    none = cut == ["none"]
    row("plan q --json", int(none), said("plan", prices=list(map(number_of, prices)), cut=None if none else list(map(int, cut)), total=number_of(total[0])),
        files={"q": text})
    row("check q c --json", 0, said("check", accepted=True), files={"q": text, "c": cert.encode()})
for cert, members in [
    ("prices 1 4 6 6 9\ncut 0 1 4\ntotal 9\n", {"reason": "OpeningPrice"}),
    ("prices 0 4 6 6 11\ncut 0 3 4\ntotal 11\n", {"reason": "Undercut", "from": 1, "to": 4}),
    ("prices 0 4 6 6 9\ncut 0 2 1 4\ntotal 9\n", {"reason": "NotACut"}),
    ("prices 0 4 6 6 9\ncut 0 4\ntotal 7\n", {"reason": "OverLimit", "from": 0, "to": 4}),
    ("prices 0 4 6 6 9\ncut 0 1 4\ntotal 10\n", {"reason": "TotalDiffers"}),
    ("prices 0 4 6 6 8\ncut 0 1 4\ntotal 9\n", {"reason": "EndPrice"}),
]:
    row("check q c --json", 1, said("check", accepted=False, **members), files={"q": queue(FOUR, 6), "c": cert.encode()})



def loaded(handles, changes, settled, groups, blocks, *numbers, refused=None, commit=None, hint=None, system=None):
    """What a load says that had no checkpointer."""
    value = dict(handles=handles, changes=changes, settled=settled, groups=groups, blocks=blocks, refused=refused, numbers=list(numbers), commit=commit, checkpoint=None)
    return said("load", **value, **({"hint": hint} if hint else {}), **({"system": system} if system else {}))


FAR = "home blocks are numbered from 0, and the image has so many: 16"
row("load a q --json", 0, loaded(1, 2, 1, 1, 4), files={"a": image(SMALL), "q": queue(HANDLE)}, after={"a": LOADED})
row("load a q --json", 1, loaded(0, 0, 0, 0, 0, 0, 16, refused="OutOfRange", hint=FAR), files={"a": image(SMALL), "q": queue("w16")})
row("load a q --hold --json", 1, loaded(1, 2, 1, 1, 4, 1, 16, refused="OutOfRange", hint=FAR), files={"a": image(SMALL), "q": queue(HANDLE + "/w16/w1")},
    after={"a": LOADED}, terminal="err")
row("load a q --hold --json", 1, loaded(1, 2, 0, 0, 0, commit="Aborted", system=WRITE % 1,
                                             hint="have the limit of a file's size raised (ulimit -f); then run jb recover on the image, and see what it holds: " + WRITE % 1),
    files={"a": image(SMALL), "q": queue(HANDLE)}, how="trap '' XFSZ; ulimit -f 1", after={"a": image(superblock(2, 1))})
row("load a q --json", 1, err=fault("BlockSize"), files={"a": image(SMALL), "q": queue(HANDLE, first="bs 2048")})
row("load a q --json", 1, err=fault("WriteFault"), files={"a": image(SMALL), "q": queue(HANDLE)}, to="full", after={"a": LOADED})

# ---- dumps: each line of the text as an object, without a picture --------------------------------------------------------------

BITS = ("compat", "incompat", "rocompat", "checksum")


def value_of(kind, name, value):
    if (kind, name) == ("revoke", "homes"):
        return [int(home) for home in value.split(",")] if value != "-" else []
    return int(value) if value.isdigit() and name not in BITS and (kind, name) != ("copy", "head") else value


def entry(line):
    """The object of a line of a dump."""
    words, members = line.split(" "), {}
    if words[0].isdigit():
        members["block"] = int(words.pop(0))
    kind = members["kind"] = words.pop(0)
    for word in words:
        name, mark, value = word.partition("=")
        members.update({name: value_of(kind, name, value)} if mark else {"uuid": word} if kind == "uuid" else {word: True})
    return members


for one in [one for one in ROWS if one["words"].startswith("dump ") and " -h" not in one["words"] and "--help" not in one["words"]
            and not one["status"] and one["to"] == "pipe" and isinstance(one["out"], str)]:
    ROWS.append({**one, "words": "--json " + one["words"], "out": are_json("dump", [entry(line) for line in one["out"].removesuffix(PICTURE).splitlines()])})

# ---- faults ------------------------------------------------------------------------------------------------------------------

for text, name in BAD_QUEUES:
    line, cause = name.split(": ")
    told = fault(cause, int(line), reason="queue line " + name)
    row("cost q --json", 2, err=told, files={"q": text})
    row("plan - --json", 2, err=told, stdin=text)
    row("check q missing --json", 2, err=told, files={"q": text})
    row("load a q --json", 2, err=told, files={"a": image(superblock()), "q": text})
for cert, name, numbers in [("", "Syntax", [1]), ("prices 0\ncut 0\n", "Syntax", [3]), ("prices 0 4\ncut 0 1\ntotal 4\n", "Length", [])]:
    row("check q c --json", 2, err=fault("certificate " + name, *numbers, reason=" ".join(["certificate:", name, *map(str, numbers)])),
        files={"q": queue(FOUR, 6), "c": cert.encode()})
for content, name in BAD_SUPERS:
    name, *numbers = re.fullmatch(r"(\w+)((?: \d+)*)", name).groups()
    numbers = list(map(int, numbers[0].split()))
    for words in ("dump a", "recover a", "renumber a", "widen a", "cat a 5"):
        row(words + " --json", 1, err=fault("Super " + name, *numbers), files={"a": content})
row("dump a --json", 1, err=fault("ReadFault", system=FOLDER), files={"a": None})
row("recover a --json", 1, err=fault("HomeOutOfRange", 16, 2), files={"a": image(superblock(2, 1), OUT_OF_RANGE)})
row("recover a --json", 1, err=fault("WriteFault"), files={"a": FULL}, to="full", after={"a": RECOVERED})
row("recover b --journal j --json", 1, err=fault("Super Geometry", file="j"), files={"b": FULL, "j": image(SMALL)[:20 * 1024]})
# a file's name is whatever the words say, quotes, backslashes and control characters among it
for name in ['q"', "q\\", "q\\n", "^", "q\t", "\x01\x1f\x7f", "q/\u202e\u00e9\u0085", "''"]:
    given = name.replace("''", "").replace("^", "\n").replace("\t", "\t")
    if not set(name) & set("\t"):
        row("cost %s --json" % name, 2, err=fault("cannot read", file=given, system=MISSING))
NOT_THERE = ("it is to be a file that may be read; an image is a regular file or block device, and may be written too: "
             "No such file or directory (os error 2)")
# the hint has what a second line says, also where that is not asked for; a terminal has no second line then
for words in ("recover a --json", "recover a --json -q", "recover a --hints --json"):
    row(words, 2, err=fault("cannot read", file="a", hint=NOT_THERE, system=MISSING), terminal="err")
row("recover a --json", 2, err=fault("in use", file="a", system=HELD), files={"a": FULL}, locked="a")
row("recover a --json", 1, err=fault("DeviceFault", system=WRITE % 38), files={"a": FULL}, how="trap '' XFSZ; ulimit -f 36")
# what is wrong with the words is text
row("recover --json", 2, err=begins("error: "))
