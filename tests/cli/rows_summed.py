"""Rows of journals with checksums, from docs/FORMAT.md alone (not from jb's code)."""
import struct

from images import BS, ESCAPE, LAST_TAG, UUID, be32, commit, data, image, padded, revoke, shown, superblock
from images import DESCRIPTOR, MAGIC
from rows import BLOCK_5, DUMP, MISSING, ONE, row
from rows_places import parted, within, xxd
from systems import ext

ONES = 0xFFFFFFFF
# the features of the four forms: CSUM_V2 and CSUM_V3, with block numbers of 32 and of 64 bits
FORMS = (8 | 1, 8 | 2 | 1, 16 | 1, 16 | 2 | 1)
V3 = 16 | 1


def crc(begun, raw):
    """CRC-32C, begun with a number and not inverted at the end."""
    for byte in raw:
        begun ^= byte
        for _ in range(8):
            begun = begun >> 1 ^ 0x82F63B78 * (begun & 1)
    return begun


SEED = crc(ONES, UUID)


def over(raw, at, new):
    return raw[:at] + new + raw[at + len(new):]


def summed(raw, at, begun=SEED):
    """The bytes with their checksum at a place."""
    return over(raw, at, be32(crc(begun, over(raw, at, bytes(4)))))


def front(form, sequence=2, start=1, kind=4):
    raw = over(superblock(sequence, start, incompat=form), 0x50, bytes([kind]))
    return summed(raw, 0xFC, ONES)


def summed_revoke(form, number, homes, count=None):
    return summed(revoke(number, homes, count, wide=bool(form & 2)), BS - 4)


def summed_descriptor(form, number, tags):
    """`tags` are (home, flags, the data as it is in the log)."""
    raw = be32(MAGIC, DESCRIPTOR, number)
    for home, flags, block in tags:
        kept = crc(crc(SEED, be32(number)), block)
        high = be32(home >> 32) * bool(form & 2)
        raw += be32(home, flags, home >> 32, kept) if form & 16 else be32(home) + struct.pack(">HH", kept & 0xFFFF, flags) + high + bytes(2)
        raw += UUID
    return summed(padded(raw), BS - 4)


def log_of(form):
    """A transaction that revokes home 7 and writes home 5."""
    return [summed_revoke(form, 2, [7]), summed_descriptor(form, 2, [(5, ESCAPE | LAST_TAG, ONE[2])]), ONE[2], summed(commit(2), 16)]


def made(form, log=None, **says):
    return image(front(form, **says), log_of(form) if log is None else log, written={9: data(b"nine")})


def told(form, end=""):
    """The text of such a journal, with the end of its copy's line."""
    super_lines = (DUMP % (2, 1, 1)).replace("incompat=00000001", "incompat=%08x" % form)
    return super_lines + """1 revoke number=2 count=%d homes=7
2 descriptor number=2 tags=1
3 copy home=5 flags=9 head=0000000001020304%s
4 commit number=2 sec=0 nsec=0
end transactions=1 expected=3
""" % (24 if form & 2 else 20, end)


DONE = "transactions 1 copies 1 revoked 0 next 4\n"
for form in FORMS:
    full, left = made(form), image(front(form, 3, 0), log_of(form), written={5: BLOCK_5, 9: data(b"nine")})
    row("dump a --checksums", 0, told(form), files={"a": full})
    row("dump a --checksums --last 1", 0, told(form), files={"a": full})
    row("cat a 5 --hex --checksums", 0, xxd(BLOCK_5), files={"a": full})
    row("recover a --checksums --dry-run --list", 0, DONE + "home 5\n", files={"a": full})
    row("recover a --checksums", 0, DONE, files={"a": full}, after={"a": left})
    row("recover a --checksums", 0, "transactions 0 copies 0 revoked 0 next 4\n", files={"a": left})
    row("recover a --checksums --journal j", 0, DONE, files=parted(full), after=parted(left))
    row("recover a --checksums --extents (0-32):20-52", 0, DONE, files=within(full, [(20, 33)]), after=within(left, [(20, 33)]))
    row("recover a --checksums", 0, DONE, files=ext(full), after=ext(left))
    # what is refused without the option stays so
    for words in ("dump a", "cat a 5", "recover a", "recover a --dry-run"):
        row(words, 1, err="jb: Super Feature 2 %d\n" % (form & 24), files={"a": full})
        row(words, 1, err="jb: Super Feature 2 %d\n" % (form & 24), files=ext(full))
# a journal without checksums is taken with the option, too
row("recover a --checksums", 0, DONE, files={"a": image(superblock(2, 1), ONE)}, after={"a": image(superblock(3), ONE, written={5: BLOCK_5})})

# ---- what is wrong --------------------------------------------------------------------------------------------------------------

ASKED = ("dump a --checksums", "cat a 5 --checksums", "recover a --checksums", "recover a --checksums --dry-run")
LOG = log_of(V3)


def changed(at, place, byte=1):
    """The log, with a byte of one of its blocks changed."""
    return LOG[:at] + [over(LOG[at], place, bytes([LOG[at][place] ^ byte]))] + LOG[at + 1:]


for log, fault in [(changed(0, BS - 1), "revoke 1"), (changed(0, 19), "revoke 1"), (changed(1, BS - 1), "descriptor 2"), (changed(1, 500), "descriptor 2"),
                   (changed(3, 16), "commit 4"), (changed(3, 55), "commit 4")]:
    for words in ASKED:
        row(words, 1, err="jb: BadChecksum %s\n" % fault, files={"a": made(V3, log)})
        row(words, 1, err="jb: BadChecksum %s\n" % fault, files=ext(made(V3, log)))
# after the first 60 bytes a commit block may be old
row("recover a --checksums", 0, DONE, files={"a": made(V3, changed(3, 700))}, after={"a": image(front(V3, 3, 0), changed(3, 700), written={5: BLOCK_5, 9: data(b"nine")})})
# data: a dump says so in its line
row("dump a --checksums", 0, told(V3, " wrong"), files={"a": made(V3, changed(2, 700))})
for words in ASKED[1:]:
    row(words, 1, err="jb: BadChecksum data 3\n", files={"a": made(V3, changed(2, 700))})
row("cat a 9 --checksums", 0, data(b"nine").decode(), files={"a": made(V3, changed(2, 700))})
# a count that is too large, of a block that is right
row("recover a --checksums", 1, err="jb: BadRevoke 1\n", files={"a": made(V3, [summed_revoke(V3, 2, [7], BS - 3), *LOG[1:]])})
# the superblock
SHOWN = []
for content, fault in [(over(front(V3), 0x20, b"\1"), "Checksum"), (front(V3, kind=1), "ChecksumType 1"), (front(24 | 1), "Feature 2 24"), (front(48 | 1), "Feature 2 32")]:
    for words in ASKED:
        row(words, 1, err="jb: Super %s\n" % fault, files={"a": image(content, LOG)})
    SHOWN.append((content, "--checksums", fault))
# it is shown all the same, wherever the journal is; and so is one with other features, with checksums and without
for content, more, fault in [*SHOWN, (front(V3), "", "Feature 2 16"), (front(V3), "--checksums", ""), (front(48 | 1), "", "Feature 2 48"),
                             *((superblock(2, 1, **bits), more, fault) for more in ("", "--checksums") for bits, fault in
                               ((dict(compat=1), "Feature 1 1"), (dict(incompat=4), "Feature 2 4"), (dict(incompat=0x21), "Feature 2 32"), (dict(rocompat=1), "Feature 3 1")))]:
    full, words = image(content, LOG), ("dump a --super %s" % more).rstrip()
    for more, files in (("", {"a": full}), ("", ext(full)), (" --extents (0-32):20-52", ext(full)), (" --extents (0-32):20-52", within(full, [(20, 33)])),
                        (" --journal j", parted(full))):
        row(words + more, bool(fault), shown(content), fault and "jb: Super %s%s\n" % (fault, " j" * ("j" in files)), files=files)
# a journal in a file system is found by its sizes: where these are refused nothing is shown
for bits, fault in ((dict(said=512), "BlockSize 512"), (dict(maxlen=8), "Geometry"), (dict(kind=3), "NotVersion2 3")):
    row("dump a --super", 1, err="jb: Super %s\n" % fault, files=ext(image(superblock(2, 1, **bits), LOG)))
# ---- transactions that are lost -----------------------------------------------------------------------------------------------

# two transactions, of three blocks each; the second one has home 6
TWO = [summed_descriptor(V3, 2, [(5, LAST_TAG, data(b"five"))]), data(b"five"), summed(commit(2), 16),
       summed_descriptor(V3, 3, [(6, LAST_TAG, data(b"six"))]), data(b"six"), summed(commit(3), 16)]
TWO_LINES = (DUMP % (2, 1, 1)).replace("incompat=00000001", "incompat=%08x" % V3) + """1 descriptor number=2 tags=1
2 copy home=5 flags=8 head=6669766500000000
3 commit number=2 sec=0 nsec=0
"""
ENDS = {1: TWO_LINES + "end transactions=1 expected=3\n", 2: TWO_LINES + """4 descriptor number=3 tags=1
5 copy home=6 flags=8 head=7369780000000000
6 commit number=3 sec=0 nsec=0
end transactions=2 expected=4
"""}
NO_LINES = (DUMP % (2, 1, 1)).replace("incompat=00000001", "incompat=%08x" % V3) + "end transactions=0 expected=2\n"


def with_block(at, block, log=TWO):
    return log[:at] + [block] + log[at + 1:]


def turned(start):
    """The log, and a start at which it goes on at the front."""
    blocks = [bytes(BS)] * 32
    for k, block in enumerate(TWO):
        blocks[(start - 1 + k) % 32] = block
    return blocks


# a header is damaged: the log ends before it, and the commit block after the end shows what is lost
NO_HEAD, OTHER = bytes(BS), summed_descriptor(V3, 9, [(6, LAST_TAG, data(b"six"))])
for log, out, lost in [
        (TWO, ENDS[2], None), (TWO[:5], ENDS[1], None), (with_block(3, NO_HEAD), ENDS[1], 6), (with_block(3, OTHER), ENDS[1], 6), (with_block(0, NO_HEAD), NO_LINES, 3),
        # after the end: of a later number, of one 2^31 - 1 after the next, of one that counts as before it, of the one before, a wrong one, none at all
        ([*TWO, NO_HEAD, summed(commit(9), 16)], ENDS[2], 8), ([*TWO[:3], NO_HEAD, summed(commit((3 + 2**31 - 1) % 2**32), 16)], ENDS[1], 5),
        ([*TWO[:3], NO_HEAD, summed(commit(3 + 2**31), 16)], ENDS[1], None), ([*TWO[:3], NO_HEAD, summed(commit(2), 16)], ENDS[1], None),
        ([*TWO[:3], NO_HEAD, commit(3)], ENDS[1], None), ([*TWO[:3], NO_HEAD, summed(summed_revoke(V3, 3, [7]), 16)], ENDS[1], None),
        # after the first 60 bytes a commit block may be old; the first of two is told
        (with_block(3, NO_HEAD)[:5] + [over(TWO[5], 700, b"old")], ENDS[1], 6), ([*with_block(3, NO_HEAD), summed(commit(4), 16)], ENDS[1], 6),
        # data of a committed transaction that looks like one is none
        ([summed_descriptor(V3, 2, [(5, LAST_TAG, summed(commit(3), 16))]), summed(commit(3), 16), TWO[2]], None, None)]:
    err, said = "jb: Lost %s\n" % lost if lost else "", out if out else lambda text: text.endswith("end transactions=1 expected=3\n")
    for files, more in (({"a": made(V3, log)}, ""), (ext(made(V3, log)), ""), (ext(made(V3, log)), " --extents (0-32):20-52"), (parted(made(V3, log)), " --journal j")):
        row("dump a --checksums --ring" + more, bool(lost), said, err and err.replace("\n", " j\n" if "j" in files else "\n"), files=files)
    row("dump a --checksums", 0, said, files={"a": made(V3, log)})
# a log that wraps, found by its place
for start in 28, 30, 31, 32:
    log = turned(start)
    row("dump a --checksums --ring", 0, lambda text: text.endswith("end transactions=2 expected=4\n"), files={"a": made(V3, log, start=start)})
    log[(start + 2) % 32] = NO_HEAD
    row("dump a --checksums --ring", 1, lambda text: text.endswith("end transactions=1 expected=3\n"), "jb: Lost %d\n" % ((start + 4) % 32 + 1), files={"a": made(V3, log, start=start)})
# the wrong block of the transaction that ends the log is told, as a recovery tells it
LONGER = [summed_descriptor(V3, 3, [(6, LAST_TAG, data(b"six"))]), data(b"six"), NO_HEAD, summed(commit(3), 16)]
for at in 20, BS - 1:
    log = [*TWO[:3], over(LONGER[0], at, bytes([LONGER[0][at] ^ 1])), *LONGER[1:]]
    row("dump a --checksums --ring", 1, ENDS[1], "jb: BadChecksum descriptor 4\n", files={"a": made(V3, log)})
    row("recover a --checksums", 1, err="jb: BadChecksum descriptor 4\n", files={"a": made(V3, log)})
    row("dump a --checksums", 0, ENDS[1], files={"a": made(V3, log)})
# what refuses the journal does so before its lines
row("dump a --checksums --ring", 1, err="jb: BadChecksum commit 3\n", files={"a": made(V3, with_block(2, over(TWO[2], 16, b"\0")))})
row("dump a --checksums --ring", 1, err="jb: Super Feature 2 32\n", files={"a": image(front(48 | 1), TWO)})
row("dump a --checksums --ring", 1, err="jb: BadRevoke 1\n", files={"a": made(V3, [summed_revoke(V3, 2, [7], BS - 3), *LOG[1:]])})
# the other options leave out lines alone; the superblock alone, a clean journal and one without checksums are not searched
row("dump a --checksums --ring --last 0", 1, ENDS[1].replace(TWO_LINES, "".join(TWO_LINES.splitlines(True)[:2])), "jb: Lost 6\n", files={"a": made(V3, with_block(3, NO_HEAD))})
row("dump a --checksums --ring --home 5", 1, TWO_LINES.splitlines(True)[2] + TWO_LINES.splitlines(True)[3], "jb: Lost 6\n", files={"a": made(V3, with_block(3, NO_HEAD))})
row("dump a --checksums --ring --super", 0, shown(front(V3)), files={"a": made(V3, with_block(3, NO_HEAD))})
row("dump a --checksums --ring", 0, lambda text: text.endswith("clean next=3\n"), files={"a": made(V3, TWO, start=0)})
row("dump a --checksums --ring", 0, (DUMP % (2, 1, 1)) + "end transactions=0 expected=2\n", files={"a": image(superblock(2, 1), [NO_HEAD, commit(2)])})
# without checksums the ring is not asked for, and it is that of an image
row("dump a --ring", 2, err="jb: bad option\n", files={"a": made(V3, TWO)}, beside="--ring")
row("dump a --ring", 2, err="jb: bad option\n", beside="--ring")
row("dump - --checksums --ring", 2, err="jb: cannot read -\n", stdin=made(V3, TWO), beside=MISSING)
row("dump a --checksums --ring", 2, err="jb: in use a\n", files={"a": made(V3, TWO)}, locked="a")
row("dump a --checksums --ring", 2, err="jb: cannot read a\n", files={"a": "fifo"})
row("dump a --checksums --ring", 1, err="jb: WriteFault\n", files={"a": made(V3, with_block(3, NO_HEAD))}, to="full")
# no other command takes them
for words in ("renumber a", "widen a"):
    row(words, 1, err="jb: Super Feature 2 16\n", files={"a": made(V3, start=0)})
