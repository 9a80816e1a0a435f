"""Rows of the table: loads onto a journal that is within its file system."""
from images import BS, data, group, image, superblock
from rows import BLOCK_5, CLEAN, FULL, HANDLE, MISSING, ONE, SMALL, queue, row
from rows_load import LOADED
from rows_places import HERE, within
from systems import BLOCK_MAP, EXTENTS, PLACES, ext

TEN = "handles 1 changes 2 settled 1 groups 1 blocks 4\n"
HOME = image(superblock(2), ONE, written={5: BLOCK_5})
QUEUE = {"q": queue(HANDLE)}
# the file system's own journal, also where the option names it; and that of a list
for kind in EXTENTS, BLOCK_MAP:
    for parts in ((20, 33),), ((59, 1), (30, 12), (20, 10)):
        row("load a q", 0, TEN, files={**ext(image(SMALL), parts, kind), **QUEUE}, after=ext(LOADED, parts, kind))
        row("load a q --hold --checkpoint", 0, TEN, files={**ext(image(SMALL), parts, kind), **QUEUE}, after=ext(HOME, parts, kind))
LISTED = {**QUEUE, "list": b"(0-9):20-29,\n(10-32):30-52\n"}
for words, given in ("20-52", b"20-29"), ("@list", b"20-29"), ("-", LISTED["list"]):
    for lay in ext, lambda content: within(content, [(20, 33)]):
        row("load a q --extents " + words, 0, TEN, files={**lay(image(SMALL)), **LISTED}, stdin=given, after=lay(LOADED))
# after a recovery in its place needs_recovery is still set; what is loaded then is there, and is recovered
SIX = {**ext(FULL), "q": queue("w6=736978")}
GROUP, WRITTEN = group(4, {6: data(b"six")}) + ONE[3:], {5: BLOCK_5, 9: data(b"nine")}
AGAIN = '"$1" recover a > /dev/null || exit 9'
row("load a q --hold", 0, "handles 1 changes 1 settled 1 groups 1 blocks 3\n", files=SIX, how=AGAIN, after=ext(image(superblock(4, 1), GROUP, written=WRITTEN)))
row("cat a 6", 0, data(b"six").decode(), files=SIX, how=AGAIN + '; "$1" load a q --hold > /dev/null || exit 8', after=ext(image(superblock(4, 1), GROUP, written=WRITTEN)))
row("recover a", 0, "transactions 1 copies 1 revoked 0 next 6\n", files=SIX, how=AGAIN + '; "$1" load a q --hold > /dev/null || exit 8',
    after=ext(image(superblock(5), GROUP, written={**WRITTEN, 6: data(b"six")})))
# a handle that touches a home block which is the journal's own: the first such handle, and the lowest of its home blocks
for handles, home in (("w20", 20), ("r52", 52), ("w5 w9/w6 w52 w33/w20", 33), ("w5/w6/w7/w8/w9/w10/w11 r20", 20), ("w53 w19 w1199/w20", 20), ("w1200/w20", 20)):
    for words, files in ("", ext(image(SMALL))), (" --extents 20-52", ext(image(SMALL))), (" --extents 20-52", within(image(SMALL), [(20, 33)])):
        for more in "", " --hold --threads 2", " --checkpoint":
            row("load a q" + words + more, 1, err="jb: Extents Home %d\n" % home, files={**files, "q": queue(handles, 3)})
row("load a q", 1, err="jb: Extents Home 20\n", files={**ext(image(SMALL)), "q": queue("w20")}, terminal="err")
# those beside it are not
row("load a q --hold", 0, "handles 2 changes 2 settled 2 groups 1 blocks 4\n", files={**ext(image(SMALL)), "q": queue("w19=13/w53=35")},
    after=ext(image(superblock(2, 1), group(2, {19: data(b"\x13"), 53: data(b"\x35")}))))
row("load a q --extents 20-52", 0, "handles 0 changes 0 settled 0 groups 0 blocks 0\n", files={**ext(image(SMALL)), "q": queue("")})
row("load a q", 1, "handles 0 changes 0 settled 0 groups 0 blocks 0\n", "jb: handle 0: OutOfRange 1200\n", files={**ext(image(SMALL)), "q": queue("w1200")}, beside="1200")
# with the journal at the front or in a file of its own these numbers are other blocks
row("load a q", 0, "handles 1 changes 1 settled 1 groups 1 blocks 3\n", files={"a": image(SMALL, homes=40), "q": queue("w20=14")},
    after={"a": image(superblock(2, 1), group(2, {20: data(b"\x14")}), homes=40)})
# the number of threads comes first, then the image, then its file system, then the text, then the home blocks, then the block size and the journal
row("load a q --threads 0 --extents x", 2, err="jb: bad option\n", files=QUEUE, beside="--threads")
row("load a q --extents 20-52 --journal j", 2, err="jb: bad option\n", files={**HERE, "j": LOADED[:33 * BS]}, beside="--extents")
for said in "x", "(0-32):20-51", "20-52;":
    row("load a q --extents " + said, 2, err="jb: bad option\n", files={**HERE, **QUEUE}, beside="--extents")
row("load a q --extents @other", 2, err="jb: cannot read other\n", files={**HERE, **QUEUE}, beside=MISSING)
for words, err, files in [
        ("", "in use a", ext(image(SMALL))), (" --extents 20-52", "in use a", HERE), (" --extents 20-52", "cannot read a", {})]:
    row("load a q" + words, 2, err="jb: %s\n" % err, files={**files, **QUEUE}, locked="a" if "use" in err else "", beside="" if "use" in err else MISSING)
for words, err, files in [
        (" --extents ''", "Extents NoJournal", HERE), (" --extents 20-53", "Extents Long 34", HERE), (" --extents (0-31):20-51", "Extents Short 32", HERE),
        (" --extents (0-9):20-29,~(10-32):31-53", "Extents Other 10", ext(image(SMALL))), ("", "Own None", ext(image(SMALL), compat=0)),
        ("", "Own Short", ext(image(superblock(maxlen=PLACES + 1)))), ("", "Super Feature 2 16", ext(image(superblock(incompat=16)))),
        ("", "Super NoMagic", ext(image(SMALL), magic=0xEF52)),
        # the kernel would empty the log unread; and a log that is not clean is judged as by a recovery
        ("", "FileSystem Clean", ext(image(SMALL), incompat=EXTENTS)), (" --extents 20-52", "FileSystem Clean", ext(image(SMALL), incompat=EXTENTS)),
        ("", "FileSystem Uuid", ext(FULL, uuid=bytes(16)))]:
    row("load a q" + words, 1, err="jb: %s\n" % err, files=files)
row("load a q", 2, err="jb: cannot read q\n", files=ext(image(SMALL)), beside=MISSING)
row("load a q", 2, err="jb: queue line 4: OpWord\n", files={**ext(image(SMALL)), "q": queue("w20/w05")})
for content, err in (SMALL, "BlockSize"), (superblock(2, 1), "BlockSize"):
    row("load a q", 1, err="jb: %s\n" % err, files={**ext(image(content)), "q": queue(HANDLE, first="bs 2048")})
    row("load a q", 1, err="jb: Extents Home 20\n", files={**ext(image(content)), "q": queue("w20", first="bs 2048")})
for content, err in (FULL, "NeedsRecovery"), (image(CLEAN), "NumbersSpent"):
    for words in "", " --extents 20-52":
        row("load a q" + words, 1, err="jb: %s\n" % err, files={**ext(content), **QUEUE})
        row("load a q" + words, 1, err="jb: Extents Home 20\n", files={**ext(content), "q": queue("w20")})
