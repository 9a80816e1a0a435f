"""Rows of the table: `cat`, journals in a file of their own, journals within their file system, and file systems."""
import struct

from images import BS, LAST_TAG, UUID, commit, data, descriptor, image, revoke, superblock
from rows import BLOCK_5, CLEAN, CLEARED, FULL, HANDLE, MISSING, OLD, ONE, OUT_OF_RANGE, RECOVERED, SMALL, TWO_AND_REVOKED, TWO_COPIES
from rows import WRITE, queue, row
from systems import ext


def xxd(content, at=0):
    """Bytes as xxd prints them."""
    lines = []
    for k in range(0, len(content), 16):
        part = content[k:k + 16]
        pairs = " ".join(part[n:n + 2].hex() for n in range(0, 16, 2))
        lines.append("%08x: %s  %s\n" % (at + k, pairs, "".join(chr(b) if 32 <= b < 127 else "." for b in part)))
    return "".join(lines)


def parted(content, blocks=33):
    """The journal at the front of an image, and its home blocks."""
    return {"j": content[:blocks * BS], "a": content[33 * BS:]}


NINE, ZEROS = data(b"nine").decode(), data().decode()
for words, files in (("cat a", {"a": FULL}), ("cat --journal j a", parted(FULL))):
    row(words + " 9", 0, NINE, files=files)
    row(words + " 8 -n 3", 0, ZEROS + NINE + ZEROS, files=files)
    row(words + " 9 -n 0", 0, files=files)
    row(words + " 5 --hex", 0, xxd(BLOCK_5), files=files)
    row(words + " 5 --hex -n 5", 0, xxd(BLOCK_5 + bytes(3 * BS) + data(b"nine")), files=files)
    of = " a" * ("j" in files)
    row(words + " 16", 1, err="jb: NoHome 16%s\n" % of, files=files, beside="16")
    row(words + " 15 -n 2", 1, ZEROS, "jb: NoHome 16%s\n" % of, files=files, beside="16")
    row(words + " 9", 1, err="jb: WriteFault\n", files=files, to="full")
    row(words + " 9", 1, err="jb: WriteFault\n", files=files, to="gone")
    row(words + " 9", 2, err="jb: in use a\n", files=files, locked="a")
row("cat a 5 -n 2", 0, data(b"five").decode() + data(b"six").decode(), files={"a": image(superblock(2, 1), TWO_COPIES)})
row("cat a 5", 0, data(b"X").decode(), files={"a": image(superblock(2, 1), TWO_AND_REVOKED, written={5: data(b"X")})})
row("cat a 9", 0, NINE, files={"a": RECOVERED})
row("cat a 9", 0, ZEROS, files={"a": image(superblock(2, 1), OUT_OF_RANGE)})
# where no block is asked for the image is judged all the same
row("cat a 9 -n 0", 0, files={"a": RECOVERED})
for asked in ("", " -n 0"):
    row("cat a 9" + asked, 1, err="jb: BadRevoke 1\n", files={"a": image(superblock(2, 1), [revoke(2, [], 1025), commit(2)])})
    row("cat a 9" + asked, 1, err="jb: Super Geometry\n", files={"a": image(SMALL)[:20 * BS]})
    row("cat a 0" + asked, 1, err="jb: NoHome 0\n", files={"a": image(SMALL, homes=0)}, beside="0")
# after a journal of its own the other file has no superblock, and is whatever it is
SPLIT = {"j": RECOVERED[:33 * BS], "a": RECOVERED[33 * BS:]}
row("recover a --journal j", 0, "transactions 1 copies 1 revoked 0 next 4\n", files=parted(FULL), after=SPLIT)
row("recover a --journal j", 0, "transactions 0 copies 0 revoked 0 next 4\n", files=SPLIT)
row("recover a --journal j", 1, err="jb: HomeOutOfRange 16 2 a\n", files=parted(image(superblock(2, 1), OUT_OF_RANGE)), beside="16")
row("recover a --journal j", 1, err="jb: WriteFault\n", files=parted(FULL), to="full", after=SPLIT)
row("recover a --journal j", 1, err="jb: Super NoMagic j\n", files={"a": FULL, "j": bytes(33 * BS)})
row("recover a --journal j", 1, err="jb: BadRevoke 1 j\n", files=parted(image(superblock(2, 1), [revoke(2, [], 1025), commit(2)])))
row("load a q --journal j", 1, err="jb: NeedsRecovery j\n", files={**parted(FULL), "q": queue(HANDLE)})
row("load a q --journal j", 1, err="jb: NumbersSpent j\n", files={**parted(image(CLEAN)), "q": queue(HANDLE)})
# names of control characters, one with quotes, which are shown as they are, and a name that is longer than what is written at once
for name, shown in (("two^lines", "two\\x0alines"), ("\x1b[2J\x7f", "\\x1b[2J\\x7f"), ("a\u009b\u00e9", "a\\xc2\\x9b\u00e9"), ("back\\x0a", "back\\x0a"),
                    ("b'c\"", "b'c\"")):
    row("cost " + name, 2, err="jb: cannot read %s\n" % shown, beside=MISSING)
    row("recover a --journal " + name, 1, err="jb: Super NoMagic %s\n" % shown, files={"a": FULL, name.replace("^", "\n"): bytes(33 * BS)})
row("cost " + "\x01" * 2000, 2, err="jb: cannot read %s\n" % ("\\x01" * 2000), beside="File name too long (os error 36)")
# home block 5 is past what the shell lets a file grow to, so its write fails and the journal is not emptied
row("recover a --journal j", 1, err="jb: DeviceFault\n", files=parted(FULL), how="trap '' XFSZ; ulimit -f 4", beside=WRITE % 5)
# ---- a journal within its file system, and file systems -----------------------------------------------------------------------


def within(content, parts, blocks=60):
    """An image whose journal is in these stretches of its home blocks, each the first of them and how many."""
    whole = bytearray(content[33 * BS:].ljust(blocks * BS, b"\0"))
    at = 0
    for first, count in parts:
        whole[first * BS:(first + count) * BS] = content[at * BS:(at + count) * BS]
        at += count
    return {"a": bytes(whole)}


def system(log=0, uuid=UUID, incompat=4, magic=0xEF53, mounted=0):
    """Home block 1, as the superblock of a file system."""
    raw = bytearray(BS)
    struct.pack_into("<I", raw, 0x18, log)
    struct.pack_into("<H", raw, 0x38, magic)
    struct.pack_into("<I", raw, 0x2C, mounted % 2**32)
    struct.pack_into("<I", raw, 0x60, incompat)
    raw[0x275] = mounted >> 32
    raw[0x68:0x78] = uuid
    return bytes(raw)


def over(content, home):
    """The image with this home block 1."""
    return content[:34 * BS] + home + content[35 * BS:]


LINE = "transactions 1 copies 1 revoked 0 next 4\n"
for parts, said in (([(20, 33)], "(0-32):20-52"), ([(40, 10), (16, 23)], "(0-9):40-49,~(10-32):16-38"),
                    ([(59, 1), (30, 12), (20, 10), (45, 10)], "(0):59,~(IND):50,~(1-12):30-41,~(ETB0):43,~(13-22):20-29,~(23-32):45-54"),
                    ([(40, 10), (16, 23)], "40-49,~16-38"), ([(20, 33)], "20-29^30,31,~^32-52^"), ([(20, 33)], ",".join("%d" % k for k in range(20, 53)))):
    row("recover a --extents " + said + " --dry-run", 0, LINE, files=within(FULL, parts))
    row("recover a --extents " + said + " --dry-run --list", 0, LINE + "home 5\n", files=within(FULL, parts))
    row("recover a --extents " + said, 0, LINE, files=within(FULL, parts), after=within(RECOVERED, parts))
    row("recover a --extents " + said, 0, "transactions 0 copies 0 revoked 0 next 4\n", files=within(RECOVERED, parts))
    row("cat a 9 --extents " + said, 0, NINE, files=within(FULL, parts))
HERE = within(FULL, [(20, 33)])
row("recover a --extents (0-9):20-29,~(10-32):29-51", 1, err="jb: Extents Overlap 29\n", files=HERE)
row("recover a --extents (0-39):20-59,~(40):60", 1, err="jb: Extents PastEnd 60\n", files=HERE)
row("recover a --extents (0-31):20-51", 1, err="jb: Extents Short 32\n", files=HERE)
row("recover a --extents 20-59", 1, err="jb: Extents Long 40\n", files=HERE)
row("recover a --extents 20-53", 1, err="jb: Extents Long 34\n", files=HERE)
row("cat a 9 --extents 20-53", 1, err="jb: Extents Long 34\n", files=HERE)
row("recover a --extents (0-32):21-53", 1, err="jb: Extents NoJournal\n", files=HERE)
row("recover a --extents (0-32):90-122", 1, err="jb: Extents NoJournal\n", files=HERE)
row("recover a --extents ''", 1, err="jb: Extents NoJournal\n", files=HERE)
row("recover a --extents 20-52", 1, err="jb: Super NotVersion2 3\n", files=within(image(superblock(2, 1, kind=3), ONE), [(20, 33)]))
row("recover a --extents 20-51,~1", 1, err="jb: Extents Front 1\n", files=within(FULL, [(20, 32), (1, 1)]))
# a home block that is asked for and is the journal's own
for words, home in (("cat a 30", 30), ("cat a 18 -n 9", 20), ("cat a 52 -n 0", 52), ("cat a 25 -n 18446744073709551615", 25)):
    row(words + " --extents 20-52", 1, err="jb: Extents Home %d\n" % home, files=HERE)
row("cat a 19 --extents 20-52", 0, ZEROS, files=HERE)
# the list in a file and from standard input
LISTED = {**HERE, "list": b"\t(0-9):20-29,\r\n(10-32):30-52\v\f\n"}
for words, given in (("@list", b"20-29"), ("-", LISTED["list"])):
    row("recover a --dry-run --extents " + words, 0, LINE, files=LISTED, stdin=given)
    row("cat a 9 --extents " + words, 0, NINE, files=LISTED, stdin=given)
row("recover a --extents @other", 2, err="jb: cannot read other\n", files=HERE, beside=MISSING)
row("recover a --extents @list", 2, err="jb: too long list\n", files={**HERE, "list": b" " * 16777217})
row("recover a --extents @list", 2, err="jb: bad option\n", files={**HERE, "list": b"(0-9):20-29; (10-32):30-52"}, beside="--extents")
# a log that is not clean, where there is no file system of ext2, ext3 or ext4: it holds nothing, or breaks off
STRAY = data(b"no block of a journal")


def is_told(text):
    """Whether a recovery is told."""
    return text.startswith("transactions ")


BEGUN = descriptor(3, [(5, LAST_TAG)])
for log, err in (([], "Nothing"), ([STRAY], "Nothing"), ([commit(9)], "Nothing"), (ONE[:2], "Nothing"), ([*ONE, revoke(3, [7]), STRAY], "Broken 6"),
                 ([*ONE, BEGUN, STRAY], "Broken 7"), ([*ONE, BEGUN, STRAY, commit(9)], ""), ([*ONE, revoke(3, [7]), commit(9)], ""), ([*ONE, STRAY], ""),
                 (ONE, "")):
    before = image(superblock(2, 1), log)
    for words in "", " --dry-run":
        if err:
            row("recover a --extents 20-52" + words, 1, err="jb: Extents %s\n" % err, files=within(before, [(20, 33)]))
    if err:
        row("recover a --force --extents 20-52 --dry-run", 0, is_told, files=within(before, [(20, 33)]))
    else:
        row("recover a --extents 20-52 --dry-run", 0, is_told, files=within(before, [(20, 33)]))
    # a file system of ext3 says that the journal is its own
    row("recover a --extents 20-52 --dry-run", 0, is_told, files=ext(before))
row("cat a 9 --extents (0-31):20-51", 1, err="jb: Extents Short 32\n", files=HERE)
row("recover a --extents (0-32):16-48", 1, err="jb: Extents Home 16\n", files=within(image(superblock(2, 1), OUT_OF_RANGE), [(16, 33)]))
row("recover a --extents (0-32):16-48 --dry-run", 1, err="jb: Extents Home 16\n", files=within(image(superblock(2, 1), OUT_OF_RANGE), [(16, 33)]))
row("recover a --extents (0-32):20-52", 1, err="jb: BadRevoke 1\n", files=within(image(superblock(2, 1), [revoke(2, [], 1025), commit(2)]), [(20, 33)]))
row("recover a --extents (0-32):20-52", 1, err="jb: Super Feature 2 16\n", files=within(image(superblock(incompat=16)), [(20, 33)]))
for said in ("x", "(0-32):20-51", "(1-32):20-51", "(0-9):20-29,~(11-32):30-51", "(0-32)20-52", "(0-32):52-20", "(0-32):20-9223372036854775808", "20-52;"):
    row("recover a --extents " + said, 2, err="jb: bad option\n", files=HERE, beside="--extents")
for words in ("recover a", "cat a 9"):
    row(words + " --extents 20-52 --journal j", 2, err="jb: bad option\n", files={**HERE, **parted(FULL)}, beside="--extents")
    row(words + " --extents 20-52", 2, err="jb: in use a\n", files=HERE, locked="a")
    row(words + " --extents 20-52", 2, err="jb: cannot read a\n", beside=MISSING)
row("recover a --list", 2, err="jb: bad option\n", files={"a": FULL}, beside="--list")
row("recover a --dry-run", 0, LINE, files={"a": FULL})
row("recover a --dry-run --list", 0, LINE + "home 5\n", files={"a": FULL})
row("recover a --dry-run --list", 1, err="jb: WriteFault\n", files={"a": FULL}, to="full")
row("recover a --dry-run", 2, err="jb: in use a\n", files={"a": FULL}, locked="a")
row("recover a --dry-run", 1, err="jb: HomeOutOfRange 16 2\n", files={"a": image(superblock(2, 1), OUT_OF_RANGE)}, beside="16")
row("recover a --journal j --dry-run --list", 0, LINE + "home 5\n", files=parted(FULL))
# the file system's superblock is home block 1
for home, err in ((system(), ""), (system(log=2), "BlockSize 4096"), (system(log=9), "BlockSize 0"), (system(uuid=bytes(16)), "Uuid"), (system(incompat=2), "Clean"),
                  (system(uuid=bytes(16), incompat=0), "Uuid"), (system(magic=0xEF52, log=2), "")):
    before, after = over(FULL, home), over(RECOVERED, home)
    # a copy of its journal; one in its place is compared with what the file system says of it (rows_own.py)
    words, lays = "recover a --journal j", [parted]
    if b"\x53\xef" not in home:
        lays.append(lambda content: within(content, [(20, 33)]))
    for lay in lays:
        words = words if lay == parted else "recover a --extents 20-52"
        if err:
            row(words, 1, err="jb: FileSystem %s a\n" % err, files=lay(before))
            row(words + " --dry-run", 1, err="jb: FileSystem %s a\n" % err, files=lay(before))
        else:
            row(words, 0, LINE, files=lay(before), after=lay(after))
        if "BlockSize" in err:
            row(words + " --force", 1, err="jb: FileSystem %s a\n" % err, files=lay(before))
        else:
            row(words + " --force", 0, LINE, files=lay(before), after=lay(after))
            row(words, 0, "transactions 0 copies 0 revoked 0 next 4\n", files=lay(after))
# a copy of a journal that is older than the last mount of its file system: of two commits the later one counts, and 0 is no time
def dated(*secs):
    """The log of a transaction with a copy, and of others that change nothing, committed at these seconds."""
    return ONE[:3] + [commit(2 + k, sec) for k, sec in enumerate(secs)]


def dated_image(front, secs, mounted, written=()):
    return over(image(front, dated(*secs), written=written), system(mounted=mounted))


for secs, mounted, is_older in (((7,), 7, False), ((7,), 8, True), ((9, 7), 9, False), ((9, 7), 10, True), ((0,), 8, False), ((7,), 2**32 + 7, True),
                                ((2**32 + 7,), 2**32 + 7, False), ((7 << 32,), 8, False), ((0, 7), 8, True)):
    said = "transactions %d copies 1 revoked 0 next %d\n" % (len(secs), 3 + len(secs))
    before, after = (dated_image(front, secs, mounted, written) for front, written in ((superblock(2, 1), {}), (superblock(2 + len(secs)), {5: BLOCK_5})))
    for words in ("recover a --journal j", "recover a --journal j --dry-run"):
        if is_older:
            row(words, 1, err="jb: FileSystem Newer a\n", files=parted(before))
            row(words + " --force", 0, said, files=parted(before), after=parted(before if "dry" in words else after))
        else:
            row(words, 0, said, files=parted(before), after=parted(before if "dry" in words else after))
# no commit, and a clean journal
for front in superblock(5, 1), superblock(2):
    row("recover a --journal j --dry-run", 0, "transactions 0 copies 0 revoked 0 next %d\n" % (6 if front == superblock(5, 1) else 3),
        files=parted(dated_image(front, (7,), 8)))
# the first fault
row("recover a --journal j", 1, err="jb: FileSystem Clean a\n", files=parted(over(image(superblock(2, 1), dated(7)), system(incompat=0, mounted=8))))
row("recover a --journal j", 1, err="jb: FileSystem Newer a\n", files=parted(over(image(superblock(2, 1), [revoke(2, [], 1025), commit(2, 7)]), system(mounted=8))))
# with blocks of 4096 bytes the file system's superblock is in home block 0
FOUR_KIB = {"j": image(superblock(maxlen=9, said=4096, size=4096), homes=0, maxlen=9, size=4096), "a": data() + system() + bytes(14 * BS)}
row("recover a --journal j", 1, err="jb: FileSystem BlockSize 1024 a\n", files=FOUR_KIB)
# a journal without a UUID may be any file system's
NAMELESS = over(image(superblock(2, 1, uuid=bytes(16)), ONE), system())
row("recover a --journal j", 0, LINE, files=parted(NAMELESS), after=parted(over(image(superblock(3, uuid=bytes(16)), ONE, written={5: BLOCK_5}), system())))
# at the front of its image a journal is beside no file system, whatever its home blocks hold
row("recover a", 0, LINE, files={"a": over(FULL, system(log=2))}, after={"a": over(RECOVERED, system(log=2))})
row("renumber j", 0, "renumbered blocks 2 next 1\n", files={"j": image(CLEAN, OLD, homes=0)}, after={"j": image(superblock(0), CLEARED, homes=0)})
row("widen j", 0, "widened limit 8\n", files={"j": image(SMALL, OLD, homes=0)}, after={"j": image(superblock(incompat=3), OLD, homes=0)})
for words, more in (("recover a", {}), ("cat a 9", {}), ("load a q", {"q": queue(HANDLE)})):
    row(words + " --journal j", 2, err="jb: cannot read j\n", files={"a": FULL, **more}, beside=MISSING)
    row(words + " --journal j", 2, err="jb: cannot read a\n", files={"j": FULL[:33 * BS], **more}, beside=MISSING)
    row(words + " --journal j", 2, err="jb: in use j\n", files={**parted(FULL), **more}, locked="j")
    row(words + " --journal j", 2, err="jb: in use a\n", files={**parted(FULL), **more}, locked="a")
    row(words + " --journal a", 2, err="jb: same file a\n", files={"a": FULL, **more})
    row(words + " --journal ./a", 2, err="jb: same file a\n", files={"a": FULL, **more})
    for blocks, err in (32, "Super Geometry"), (34, "JournalLength 34 33"):
        row(words + " --journal j", 1, err="jb: %s j\n" % err, files={**parted(FULL + bytes(BS), blocks), **more})
