"""The table: what is run, and what it must say and leave. The texts are those of docs/TEXTS.md. Further rows: rows_places.py, rows_load.py,
rows_images.py and rows_words.py."""
from holders import HELD
from images import BS, COMMIT, ESCAPE, LAST_TAG, MAGIC, SAME_UUID, SUPER1
from images import be32, commit, data, descriptor, image, padded, revoke, shown, superblock

ROWS = []


def row(words, status, out="", err="", files=(), stdin=b"", after=(), how="", to="pipe", terminal="", locked="", beside=""):
    """One run of the program in an empty folder.

    words     its words, as one text; in a word `~` stands for a space and `^` for an LF, '' is an empty one, and a NUL is never needed
    files     the files that are there before, by their names; None makes a folder, a number a file of this many zeros, a text that kind
              of file
    after     the files that differ afterwards, or are new, or `...` for one that is gone; all others must be as they were, and there may
              be no other; a function judges the bytes instead
    how       a shell's `ulimit`, `trap` and `exec` before it starts, or a run before it, as `"$1" WORDS`
    locked    the file that is locked meanwhile; a line of `err` says by whom
    to        standard output: a pipe, a pipe that nobody reads (`gone`), or a full device (`full`)
    terminal  which of standard input (`in`) and standard error (`err`) is a terminal; on that one the line of `err` has a second one
              after it, what the program's own help says of the first
    beside    what that one says beside the words of the help; of an option its name alone, as the help says what it may be. The system's reason
              is on a second line in a pipe, too, and so is who has a file
    out, err  the two outputs, byte by byte; a function judges the text instead"""
    beside = beside or HELD * bool(locked and isinstance(err, str) and err.startswith("jb: in use"))
    ROWS.append(dict(words=words, status=status, out=out, err=err, files=dict(files), stdin=stdin, after=dict(after), how=how, to=to,
                     terminal=terminal, locked=locked, beside=beside))


def queue(handles, limit=8, first="bs 1024"):
    """A queue text; `/` is between handles, and the empty text has none."""
    lines = [first, "limit %d" % limit] + ["h" + (" " + words if words else "") for words in handles.split("/")] * bool(handles or handles is None)
    return ("\n".join(lines) + "\n").encode()


# ---- queue texts -------------------------------------------------------------------------------------------------------------

THREE = "w1 w2 w3/w3 w4 w5/w1 w2"
FOUR = "w1 w2/w3 w4/w3 w4/w3 w4 w5"
# the system's texts
MISSING, THERE, NO_FOLDER, FOLDER, LARGE = ("No such file or directory (os error 2)", "File exists (os error 17)", "Not a directory (os error 20)",
                                            "Is a directory (os error 21)", "File too large (os error 27)")
LONG_NAME = "File name too long (os error 36)"
# a write past the limit of the file size, at a block
WRITE = "write at block %d: " + LARGE
# the most bytes of a queue text, and of a certificate
LONG = 16_777_216
LONGEST = 9 * LONG
# what is wrong with a queue text, and what is said of it
BAD_QUEUES = [
    (b"", "1: BlockSizeLine"), (b"bs 512\n", "1: BlockSizeLine"), (b"bs 1024\nlimit 2\n", "2: LimitLine"),
    (b"bs 1024\nlimit 7\nx\n", "3: HandleLine"), (b"bs 1024\nlimit 7\nh w1\nh w01\n", "4: OpWord"),
    (b"bs 1024\nlimit 7\nh x2\n", "3: OpWord"), (b"bs 1024\nlimit 7\nh w1=c\n", "3: DataWord"),
]

row("", 0, "cost 7 limit 7 fits\n", stdin=queue(THREE, 7))
row("cost -", 0, "cost 7 limit 7 fits\n", stdin=queue(THREE, 7), files={"-": queue(FOUR, 6)})
row("cost q", 0, "cost 7 limit 7 fits\n", files={"q": queue(THREE, 7)}, stdin=b"bs 1024\nlimit 7\n")
row("cost -- -q", 0, "cost 7 limit 7 fits\n", files={"-q": queue(THREE, 7)})
row("cost q", 1, "cost 7 limit 6 over\n", files={"q": queue(THREE, 6)})
row("cost q", 0, "cost 1 limit 8 fits\n", files={"q": queue("")})
row("cost q", 0, "cost 128 limit 130 fits\n", files={"q": queue(" ".join("w%d" % n for n in range(125)), 130)})
row("cost q", 0, "cost 3 limit 8 fits\n", files={"q": queue(" ".join("r%d" % n for n in range(253)))})
PLANS = [
    ("", 8, "prices 0\ncut 0\ntotal 0\n"),
    (None, 8, "prices 0 1\ncut 0 1\ntotal 1\n"),
    (THREE, 7, "prices 0 5 7 7\ncut 0 3\ntotal 7\n"),
    (THREE, 6, "prices 0 5 10 14\ncut 0 1 2 3\ntotal 14\n"),
    (FOUR, 6, "prices 0 4 6 6 9\ncut 0 1 4\ntotal 9\n"),
    ("w1 w2 w3 w4/r1 r2 r3 r4", 5, "prices 0 none 2\ncut 0 2\ntotal 2\n"),
    ("w1 w2", 3, "prices 0 none\ncut none\n"),
    ("w1 w2/w3 w4/w5 w6", 6, "prices 0 4 6 10\ncut 0 1 3\ntotal 10\n"),
]
for handles, limit, cert in PLANS:
    text = b"bs 1024\nlimit 8\nh\n" if handles is None else queue(handles, limit)
    row("plan q", int("none\n" in cert.split("cut")[1]), cert, files={"q": text})
    row("check q c", 0, "accepted\n", files={"q": text, "c": cert.encode()})
row("plan -", 0, PLANS[4][2], stdin=queue(FOUR, 6))
for cert, name in [
    ("prices 1 4 6 6 9\ncut 0 1 4\ntotal 9\n", "OpeningPrice"),
    ("prices 0 4 6 6 11\ncut 0 3 4\ntotal 11\n", "Undercut 1 4"),
    ("prices 0 4 6 6 9\ncut 0 2 1 4\ntotal 9\n", "NotACut"),
    ("prices 0 4 6 6 9\ncut 0 4\ntotal 7\n", "OverLimit 0 4"),
    ("prices 0 4 6 6 9\ncut 0 1 4\ntotal 10\n", "TotalDiffers"),
    ("prices 0 4 6 6 8\ncut 0 1 4\ntotal 9\n", "EndPrice"),
]:
    row("check q c", 1, "refused %s\n" % name, files={"q": queue(FOUR, 6), "c": cert.encode()})
for cert, name in [("", "Syntax 1"), ("prices 0\ncut 0\n", "Syntax 3"), ("prices 0\ncut none\n\n", "Syntax 3"), ("prices 0 4\ncut 0 1\ntotal 4\n", "Length")]:
    row("check q c", 2, err="jb: certificate: %s\n" % name, files={"q": queue(FOUR, 6), "c": cert.encode()})
for text, name in BAD_QUEUES:
    row("cost q", 2, err="jb: queue line %s\n" % name, files={"q": text})
    row("plan -", 2, err="jb: queue line %s\n" % name, stdin=text)
    row("check q missing", 2, err="jb: queue line %s\n" % name, files={"q": text})
    row("load a q", 2, err="jb: queue line %s\n" % name, files={"a": image(superblock()), "q": text})
row("", 2, err="jb: queue line 1: BlockSizeLine\n")
for words, name in [("cost q", "q"), ("plan q", "q"), ("check q c", "q"), ("check ok q", "q"), ("check - c", "-"), ("load a q", "q")]:
    some = {"ok": queue(FOUR, 6), "c": PLANS[4][2].encode(), "a": image(superblock())}
    row(words, 2, err="jb: cannot read %s\n" % name, files=some, stdin=queue(FOUR, 6), beside=MISSING)
    if name == "q":
        row(words, 2, err="jb: cannot read q\n", files={**some, "q": None}, beside=FOLDER)
        row(words, 2, err="jb: too long q\n", files={**some, "q": (LONG if words != "check ok q" else LONGEST) + 1})
row("cost -", 2, err="jb: too long -\n", stdin=bytes(LONG + 1))
row("cost -", 2, err="jb: queue line 1: BlockSizeLine\n")
row("cost -", 2, err="jb: queue line 1: BlockSizeLine\n", stdin=b"x" * LONG)
row("", 1, "cost 7 limit 6 over\n", stdin=queue(THREE, 6))
for words, name, beside in ("cost ''", "", MISSING), ("cost .", ".", FOLDER), ("cost q/a", "q/a", NO_FOLDER):
    row(words, 2, err="jb: cannot read %s\n" % name, files={"q": queue(THREE, 7)}, stdin=b"bs 1024\nlimit 7\n", beside=beside)
# of two texts the queue is read first; a certificate may be longer than a queue text, and not without an end
for cert in b"", PLANS[4][2].encode():
    row("check q c", 2, err="jb: queue line 3: OpWord\n", files={"q": queue("x", 6), "c": cert})
row("check q c", 2, err="jb: certificate: Syntax 1\n", files={"q": queue(FOUR, 6), "c": b"x" * (LONG + 1)})
row("check q /dev/zero", 2, err="jb: too long /dev/zero\n", files={"q": queue(FOUR, 6)})
for words in ("cost q", "plan q", "check q c"):
    some = {"q": queue(FOUR, 7), "c": PLANS[4][2].encode()}
    row(words, 1, err="jb: WriteFault\n", files=some, to="full")
    row(words, 1, err="jb: WriteFault\n", files=some, to="gone")
    # these handles take some 280 MB, and the program without them a few
    row(words, 1, err="jb: Memory\n", files={**some, "q": queue(FOUR, 7) + b"h\n" * 8_000_000}, how="ulimit -v 200000")

# ---- images ------------------------------------------------------------------------------------------------------------------

HANDLE = "w5=c03b399801020304 r7"
SMALL = superblock()
# the log of HANDLE as transaction 2, and of others
ONE = [revoke(2, [7]), descriptor(2, [(5, ESCAPE | LAST_TAG)]), data(bytes(4) + b"\1\2\3\4"), commit(2)]
BLOCK_5 = data(b"\xc0\x3b\x39\x98\1\2\3\4")
FULL = image(superblock(2, 1), ONE, written={9: data(b"nine")})
TWO_AND_REVOKED = [descriptor(2, [(5, LAST_TAG)]), data(b"two"), commit(2), revoke(3, [5]), commit(3)]
OUT_OF_RANGE = [descriptor(2, [(16, LAST_TAG)]), data(b"far"), commit(2)]
TWO_COPIES = [descriptor(2, [(5, 0), (6, SAME_UUID | LAST_TAG)]), data(b"five"), data(b"six"), commit(2)]
CLEAN = superblock(4294967295)
# images that are refused by their superblocks, and the names of these refusals
BAD_SUPERS = [
    (b"", "ShortBlock"), (superblock()[:1023], "ShortBlock"), (bytes(49 * BS), "NoMagic"), (image(superblock(kind=SUPER1)), "NotVersion2 3"),
    (image(superblock(said=512)), "BlockSize 512"), (image(superblock(maxlen=8)), "Geometry"), (image(superblock(start=33)), "Geometry"),
    (image(SMALL)[:20 * BS], "Geometry"), (image(superblock(compat=1)), "Feature 1 1"), (image(superblock(incompat=0x11)), "Feature 2 16"),
    (image(superblock(rocompat=6)), "Feature 3 6"),
]
CAT = ("cat a 5", {})
LOADS = [("recover a", {}), ("renumber a", {}), ("widen a", {}), ("load a q", {"q": queue("w1")})]

DUMP = """super bs=1024 maxlen=33 first=1 sequence=%d start=%d errno=0 compat=00000000 incompat=0000000%d rocompat=00000000 max=0 limit=8
uuid 000102030405060708090a0b0c0d0e0f
"""
DUMPED = DUMP % (2, 1, 1) + """1 revoke number=2 count=20 homes=7
2 descriptor number=2 tags=1
3 copy home=5 flags=9 head=0000000001020304
4 commit number=2 sec=0 nsec=0
end transactions=1 expected=3
"""
row("dump a", 0, DUMPED, files={"a": FULL})
row("dump a", 0, DUMPED, files={"a": FULL}, locked="a")
row("dump -", 0, DUMPED, stdin=FULL, files={"-": image(SMALL)})
row("dump a", 0, DUMP % (1, 0, 1) + "clean next=2\n", files={"a": image(SMALL, homes=0)})
row("dump a", 0, DUMP % (2, 1, 1) + "end transactions=0 expected=2\n", files={"a": image(superblock(2, 1), ONE[:3])})
# the lines of home 5, of the last transaction, and of the superblock
TOLD = DUMP % (2, 1, 1) + """1 descriptor number=2 tags=1
2 copy home=5 flags=8 head=74776f0000000000
3 commit number=2 sec=0 nsec=0
4 revoke number=3 count=20 homes=5
5 commit number=3 sec=0 nsec=0
end transactions=2 expected=4
"""
for words, numbers in [("", range(8)), (" --home 5", [2, 3, 5]), (" --home=7", []), (" --last 1", [0, 1, 5, 6, 7]), (" --last 0", [0, 1, 7]),
                       (" --last 1 --home 5", [5])]:
    row("dump a" + words, 0, "".join(TOLD.splitlines(True)[n] for n in numbers), files={"a": image(superblock(2, 1), TWO_AND_REVOKED)})
# at a glance, whatever the other options say
GLANCE = """log transactions=2 used=5 usable=32 free=27
ends tail=1 head=6
blocks least=2 mean=2 most=3
copies total=1 homes=1
home number=5 copies=1
revokes total=1
commits first=1970-01-01T00:00:00Z last=1970-01-01T00:00:00Z
"""
for words in ["", " --home 7", " --last 0", " --super"]:
    row("dump a --summary" + words, 0, GLANCE, files={"a": image(superblock(2, 1), TWO_AND_REVOKED)})
# with its picture: a transaction in each of the columns 0 and 3, and the head in column 5
PICTURE = f"""blocks in a column: 1; . free, - used, 1-9 transactions begin, + more
|1--1-{"." * 27}|
|T    H{" " * 26}|
T is the tail, H the head, B both
|{"#" * 30}| home 5: 1
"""
for words in [" --summary --draw", " --draw --super --summary"]:
    row("dump a" + words, 0, GLANCE + PICTURE, files={"a": image(superblock(2, 1), TWO_AND_REVOKED)})
row("dump a --draw", 0, TOLD, files={"a": image(superblock(2, 1), TWO_AND_REVOKED)})
row("dump - --summary --draw", 0, "log transactions=0 used=0 usable=32 free=32\nclean next=2\n", stdin=image(SMALL, homes=0))
row("dump a --summary --draw", 1, err="jb: WriteFault\n", files={"a": FULL}, to="full")
row("dump - --summary", 0, "log transactions=0 used=0 usable=32 free=32\nclean next=2\n", stdin=image(SMALL, homes=0))
row("dump a --summary", 0, "log transactions=0 used=0 usable=32 free=32\nends tail=1 head=1\n", files={"a": image(superblock(2, 1), ONE[:3])})
row("dump a --summary", 1, err="jb: BadRevoke 1\n", files={"a": image(superblock(2, 1), [revoke(2, [], 1025), commit(2)])})
row("dump a --summary", 1, err="jb: WriteFault\n", files={"a": FULL}, to="full")
row("dump - --home 7", 0, DUMPED.splitlines(True)[2], stdin=FULL)
# the superblock alone, whatever the log and the file are, and whatever lines the other options ask for; also of one that is refused
for words in ["", " --home 5", " --last 1 --home=7", " --checksums"]:
    row("dump a --super" + words, 0, shown(superblock(2, 1)), files={"a": image(superblock(2, 1), TWO_AND_REVOKED)})
row("dump a --super", 0, shown(superblock(2, 1)), files={"a": image(superblock(2, 1), [revoke(2, [], 1025), commit(2)])})
row("dump a --super", 0, shown(SMALL), files={"a": image(SMALL)[:20 * BS]})
row("dump - --super", 0, shown(SMALL), stdin=SMALL)
row("dump a --super", 1, err="jb: WriteFault\n", files={"a": FULL}, to="full")
row("dump a --super", 1, err="jb: ReadFault\n", files={"a": None}, beside=FOLDER)
row("dump a --super", 2, err="jb: cannot read a\n", beside=MISSING)
for content, name in BAD_SUPERS:
    if content != image(SMALL)[:20 * BS]:
        row("dump a --super", 1, shown(content), "jb: Super %s\n" % name, files={"a": content})
        row("dump - --super", 1, shown(content), "jb: Super %s\n" % name, stdin=content)
row("dump a --super", 1, err="jb: WriteFault\n", files={"a": image(superblock(compat=1))}, to="full")
row("dump a --last 1", 1, err="jb: WriteFault\n", files={"a": FULL}, to="full")
row("dump a", 1, err="jb: BadRevoke 1\n", files={"a": image(superblock(2, 1), [revoke(2, [], 1025), commit(2)])})
row("dump a", 2, err="jb: cannot read a\n", beside=MISSING)
row("dump a", 1, err="jb: ReadFault\n", files={"a": None}, beside=FOLDER)
row("dump a", 1, err="jb: WriteFault\n", files={"a": FULL}, to="full")
row("dump a", 1, err="jb: WriteFault\n", files={"a": FULL}, to="gone")
for content, name in BAD_SUPERS:
    row("dump a", 1, err="jb: Super %s\n" % name, files={"a": content})
    for words, more in [*LOADS, CAT]:
        row(words, 1, err="jb: Super %s\n" % name, files={"a": content, **more})
for words, more in [*LOADS, CAT]:
    row(words, 2, err="jb: cannot read a\n", files=more, beside=MISSING)
    row(words, 2, err="jb: cannot read a\n", files={"a": None, **more})
    row(words, 2, err="jb: cannot read a\n", files={"a": "fifo", **more})
    row(words, 2, err="jb: in use a\n", files={"a": FULL, **more}, locked="a")
for words, more in LOADS[1:]:
    row(words, 1, err="jb: NeedsRecovery\n", files={"a": FULL, **more})

# ---- format ------------------------------------------------------------------------------------------------------------------

MADE = image(superblock(uuid=bytes(16)))
BASIC = "format a --bs 1024 --journal 33 --homes 16"
row(BASIC, 0, "formatted limit 8\n", after={"a": MADE})
row("format a --bs 1024 --journal 33 --homes 16 --uuid 000102030405060708090A0b0c0d0e0f", 0, "formatted limit 8\n", after={"a": image(SMALL)})
row(BASIC + " --wide --max 5", 0, "formatted limit 5\n", after={"a": image(superblock(incompat=3, most=5, uuid=bytes(16)))})
row(BASIC + " --sparse", 0, "formatted limit 8\n", after={"a": MADE})
row("format a --bs 1024 --journal 33 --homes 4294967297", 2, err="jb: bad option\n", beside="--homes")
row("format a --bs 4096 --journal 9 --homes 0", 0, "formatted limit 3\n",
    after={"a": image(superblock(maxlen=9, said=4096, size=4096, uuid=bytes(16)), homes=0, maxlen=9, size=4096)})
row(BASIC, 2, err="jb: cannot make a\n", files={"a": FULL}, beside=THERE)
row(BASIC, 2, err="jb: cannot make a\n", files={"a": b""}, beside=THERE)
row(BASIC, 2, err="jb: cannot make a\n", files={"a": None}, beside=THERE)
# what a killed run leaves under the other name goes, and nothing else does
OTHER = "a.jb-unfinished"
for left in (b"", bytes(9 * BS), 1 << 20, MADE, image(SMALL), image(superblock(incompat=3, maxlen=9), homes=100, maxlen=9)):
    row(BASIC, 0, "formatted limit 8\n", files={OTHER: left}, after={OTHER: ..., "a": MADE})
for kept in (b"mine\n", bytes(1023), bytes(40000) + b"x", FULL, image(CLEAN), image(SMALL, ONE), image(SMALL, written={15: data(b"x")}),
             padded(SMALL[:80], 81) + b"x" + bytes(48 * BS), None, "fifo"):
    row(BASIC, 2, err="jb: cannot make a\n", files={OTHER: kept}, beside=THERE)
row(BASIC, 2, err="jb: cannot make a\n", files={OTHER: b""}, locked=OTHER)
row(BASIC, 2, err="jb: cannot make a\n", files={"a": FULL, OTHER: b""}, beside=THERE)
# a name that has room for the other name, and one that has none
row(BASIC.replace(" a ", " %s " % ("n" * 241)), 0, "formatted limit 8\n", after={"n" * 241: MADE})
row(BASIC.replace(" a ", " %s " % ("n" * 242)), 2, err="jb: cannot make %s\n" % ("n" * 242), beside=LONG_NAME)
row("format f/a --bs 1024 --journal 33 --homes 16", 2, err="jb: cannot make f/a\n", beside=MISSING)
row("format f/a --bs 1024 --journal 33 --homes 16", 2, err="jb: cannot make f/a\n", files={"f": b"no folder"}, beside=NO_FOLDER)
for words, bad in (("--bs 512 --journal 33 --homes 16", "--bs"), ("--bs 1024 --journal 4294967296 --homes 16", "--journal"),
                   ("--bs 1024 --journal 33 --homes 16 --max 4294967296", "--max"), ("--bs 1024 --journal 33 --homes 9007199254740992", "--homes"),
                   ("--bs 1024 --journal 33 --homes 16 --uuid 00", "--uuid"), ("--bs 1024 --journal 33 --homes 16 --uuid " + "g" * 32, "--uuid"),
                   ("--bs 512 --journal 4294967296 --homes 16 --uuid 00", "--bs")):
    row("format a " + words, 2, err="jb: bad option\n", beside=bad)
    row("format a " + words, 2, err="jb: bad option\n", files={"a": FULL}, beside=bad)
row(BASIC, 1, err="jb: WriteFault\n", to="full", after={"a": MADE})
row("format a --bs 1024 --journal 8 --homes 16", 1, err="jb: Geometry\n")
row("format a --bs 1024 --journal 8 --homes 16", 1, err="jb: Geometry\n", files={"a": FULL})
# the file is past what the shell lets a file grow to: it was made, and is removed again
row(BASIC, 2, err="jb: cannot make a\n", how="trap '' XFSZ; ulimit -f 16", beside=LARGE)

# ---- recover, renumber and widen ---------------------------------------------------------------------------------------------

RECOVERED = image(superblock(3), ONE, written={5: BLOCK_5, 9: data(b"nine")})
row("recover a", 0, "transactions 1 copies 1 revoked 0 next 4\n", files={"a": FULL}, after={"a": RECOVERED})
row("recover a", 0, "transactions 0 copies 0 revoked 0 next 4\n", files={"a": RECOVERED})
row("recover a", 0, "transactions 0 copies 0 revoked 0 next 3\n", files={"a": image(superblock(2, 1), ONE[:3])},
    after={"a": image(superblock(2), ONE[:3])})
row("recover a", 0, "transactions 2 copies 0 revoked 1 next 5\n", files={"a": image(superblock(2, 1), TWO_AND_REVOKED, written={5: data(b"X")})},
    after={"a": image(superblock(4), TWO_AND_REVOKED, written={5: data(b"X")})})
row("recover a", 0, "transactions 1 copies 2 revoked 0 next 4\n", files={"a": image(superblock(2, 1), TWO_COPIES)},
    after={"a": image(superblock(3), TWO_COPIES, written={5: data(b"five"), 6: data(b"six")})})
row("recover a", 0, "transactions 2 copies 0 revoked 1 next 5\n", files={"a": image(superblock(2, 1), OUT_OF_RANGE + [revoke(3, [16]), commit(3)])},
    after={"a": image(superblock(4), OUT_OF_RANGE + [revoke(3, [16]), commit(3)])})
row("recover a", 0, "transactions 1 copies 1 revoked 0 next 4\n", files={"a": FULL + b"the rest of no block"},
    after={"a": RECOVERED + b"the rest of no block"})
row("recover a", 1, err="jb: BadRevoke 1\n", files={"a": image(superblock(2, 1), [revoke(2, [], 1025), commit(2)])})
row("recover a", 1, err="jb: HomeOutOfRange 16 2\n", files={"a": image(superblock(2, 1), OUT_OF_RANGE)}, beside="16")
row("recover a", 1, err="jb: HomeOutOfRange 16 2\n", files={"a": image(superblock(2, 1), OUT_OF_RANGE, homes=3)}, beside="3")
row("recover a", 1, err="jb: WriteFault\n", files={"a": FULL}, to="full", after={"a": RECOVERED})
# home block 5 is past what the shell lets a file grow to, so its write fails and the journal is not emptied
row("recover a", 1, err="jb: DeviceFault\n", files={"a": FULL}, how="trap '' XFSZ; ulimit -f 36", beside=WRITE % 38)
OLD = [data(), padded(be32(MAGIC, COMMIT, 7)), data(b"no header"), padded(be32(MAGIC))]
CLEARED = [data(), data(), data(b"no header"), data()]
row("renumber a", 0, "renumbered blocks 2 next 1\n", files={"a": image(CLEAN, OLD)}, after={"a": image(superblock(0), CLEARED)})
row("renumber a", 1, err="jb: WriteFault\n", files={"a": image(CLEAN, OLD)}, to="full", after={"a": image(superblock(0), CLEARED)})
row("renumber a", 1, err="jb: DeviceFault\n", files={"a": image(CLEAN, OLD)}, how="trap '' XFSZ; ulimit -f 1", beside=WRITE % 2)
WIDENED = image(superblock(incompat=3), OLD)
row("widen a", 0, "widened limit 8\n", files={"a": image(SMALL, OLD)}, after={"a": WIDENED})
row("widen a", 0, "already wide limit 8\n", files={"a": WIDENED})
row("widen a", 1, err="jb: WriteFault\n", files={"a": image(SMALL, OLD)}, to="full", after={"a": WIDENED})
row("widen a", 1, err="jb: DeviceFault\n", files={"a": image(SMALL, OLD)}, how="trap '' XFSZ; ulimit -f 0", beside=WRITE % 0)
