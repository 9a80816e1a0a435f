"""The bytes of journals and images, from docs/FORMAT.md alone (not from jb's code). Blocks have 1,024 bytes unless said."""
import struct

BS = 1024
UUID = bytes(range(16))
MAGIC = 0xC03B3998
DESCRIPTOR, COMMIT, SUPER1, SUPER2, REVOKE = 1, 2, 3, 4, 5
ESCAPE, SAME_UUID, LAST_TAG = 1, 2, 8


def padded(raw, size=BS):
    """A block that begins with these bytes."""
    return raw + bytes(size - len(raw))


def be32(*numbers):
    return struct.pack(">%dI" % len(numbers), *numbers)


def superblock(sequence=1, start=0, maxlen=33, first=1, compat=0, incompat=1, rocompat=0, most=0, uuid=UUID, kind=SUPER2, said=BS, size=BS):
    raw = be32(MAGIC, kind, 0, said, maxlen, first, sequence, start, 0, compat, incompat, rocompat)
    return padded(raw + uuid + be32(1, 0, most), size)


def shown(content):
    """What `jb dump --super` says of a superblock of version 2, whatever it is; or nothing."""
    if len(content) < 1024 or content[:8] != be32(MAGIC, SUPER2):
        return ""
    word = dict(enumerate(struct.unpack(">256I", content[:1024])))
    usable = max(word[4] - word[5], 0)
    limit = min(max(word[18], 3), usable) if word[18] else max(usable // 4, 3)
    return """super bs=%d maxlen=%d first=%d sequence=%d start=%d errno=%d compat=%08x incompat=%08x rocompat=%08x max=%d limit=%d
uuid %s
more number=%d nr_users=%d dynsuper=%d max_trans_data=%d checksum_type=%d num_fc_blks=%d head=%d checksum=%08x
""" % (*(word[n] for n in range(3, 12)), word[18], limit, content[48:64].hex(), word[2], word[16], word[17], word[19], content[80], word[21], word[22], word[63])


def revoke(number, homes, count=None, wide=False):
    raw = b"".join(struct.pack(">Q" if wide else ">I", home) for home in homes)
    return padded(be32(MAGIC, REVOKE, number, 16 + len(raw) if count is None else count) + raw)


def descriptor(number, tags, uuid=UUID, wide=False):
    """`tags` are (home, flags); the UUID comes after the first."""
    raw = be32(MAGIC, DESCRIPTOR, number)
    for home, flags in tags:
        raw += be32(home % 2**32) + struct.pack(">HH", 0, flags) + be32(home >> 32) * wide + (b"" if flags & SAME_UUID else uuid)
    return padded(raw)


def group(number, writes):
    """The log blocks of a transaction that writes these homes, with what is written."""
    flags = [SAME_UUID * (n > 0) | LAST_TAG * (n == len(writes) - 1) for n in range(len(writes))]
    return [descriptor(number, list(zip(writes, flags))), *writes.values(), commit(number)]


def commit(number, sec=0):
    return padded(padded(be32(MAGIC, COMMIT, number), 48) + struct.pack(">QI", sec, 0))


def data(text=b""):
    return padded(text)


def image(front, log=(), homes=16, maxlen=33, written=(), size=BS):
    """An image: its superblock, the log's blocks from place 1 on, zeros, and home blocks, of which `written` has some."""
    blocks = [front, *log]
    blocks += [bytes(size)] * (maxlen + homes - len(blocks))
    for home, content in dict(written).items():
        blocks[maxlen + home] = content
    return b"".join(blocks)
