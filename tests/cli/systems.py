"""The bytes of file systems whose journal is an inode of theirs, from docs/TEXTS.md and the kernel's documentation of ext4 alone (not from jb's code).
Blocks have 1,024 bytes: block 1 has the superblock, 2 the descriptor of the only group, 3 its eight inodes of 128 bytes."""
import struct

from images import BS, UUID

BLOCKS, PLACES, DESCRIPTORS, INODES, SPARE = 1200, 1024, 2, 3, 4
EXTENTS, BLOCK_MAP = 0x40, 0


def le(form, *numbers):
    return struct.pack("<" + form, *numbers)


def stretches(parts, places=PLACES, spare=100):
    """The journal's stretches in the image, each its first block and how many, up to this many places: these, and then blocks that nothing else has."""
    parts = list(parts)
    left = places - sum(count for _, count in parts)
    if left:
        parts.append((spare, left))
    return parts


def tree(parts):
    """The sixty bytes of an inode that map these stretches, four at most, by extents."""
    raw, at = le("HHHHI", 0xF30A, len(parts), 4, 0, 0), 0
    for first, count in parts:
        raw += le("IHHI", at, count, first >> 32, first % 2**32)
        at += count
    return raw.ljust(60, b"\0")


def block_map(parts, maps):
    """The same by a block map, and the blocks of the map, by their numbers: the first for one level, the second and those after it for two."""
    blocks = [first + k for first, count in parts for k in range(count)]
    words, rest, laid = blocks[:12], blocks[12:], {}
    laid[maps[0]] = le("256I", *(rest[:256] + [0] * 256)[:256])
    rest, below = rest[256:], []
    for block in maps[2:]:
        if not rest:
            break
        laid[block] = le("256I", *(rest[:256] + [0] * 256)[:256])
        below.append(block)
        rest = rest[256:]
    laid[maps[1]] = le("256I", *(below + [0] * 256)[:256])
    return le("15I", *words, maps[0], maps[1], 0), laid


def superblock_of(root, incompat=4 | EXTENTS, compat=4, log=0, uuid=UUID, mounted=0, inum=8, backup=True, blocks=BLOCKS, magic=0xEF53, size=PLACES * BS, fields=()):
    """The superblock; `fields` are (place, form, number)."""
    raw = bytearray(BS)
    for at, form, number in ((0x00, "I", 8), (0x04, "I", blocks), (0x14, "I", 1), (0x18, "I", log), (0x1C, "I", log), (0x20, "I", 8192), (0x24, "I", 8192), (0x28, "I", 8),
                             (0x2C, "I", mounted % 2**32), (0x38, "H", magic), (0x4C, "I", 1), (0x54, "I", 11), (0x58, "H", 128), (0x5C, "I", compat), (0x60, "I", incompat),
                             (0xE0, "I", inum), (0x275, "B", mounted >> 32)) + tuple(fields):
        struct.pack_into("<" + form, raw, at, number)
    raw[0x68:0x78] = uuid
    if backup:
        raw[0xFD] = 1
        raw[0x10C:0x10C + 68] = root + le("II", size >> 32, size % 2**32)
    return bytes(raw)


def ext(content, parts=((20, 33),), kind=EXTENTS, front=superblock_of, inode=(), laid=(), **says):
    """An image with the file system: the journal of 33 blocks at the front of `content`, in the first of these stretches, and the home blocks after it, but for
    1 to 3. `inode` are (place, form, number) of the journal's inode, and `laid` blocks that are put over all."""
    whole = bytearray(content[33 * BS:].ljust(BLOCKS * BS, b"\0"))
    parts, at = stretches(parts), 0
    for first, count in parts:
        whole[first * BS:(first + count) * BS] = content[:33 * BS][at * BS:(at + count) * BS].ljust(count * BS, b"\0")
        at += count
    root, more = (tree(parts), {}) if kind else block_map(parts, (1190, 1191, 1192, 1193, 1194))
    node = bytearray(128)
    node[0x28:0x64] = root
    for place, form, number in ((0x00, "H", 0x8180), (0x04, "I", PLACES * BS), (0x1A, "H", 1), (0x20, "I", 0x80000 if kind else 0)) + tuple(inode):
        struct.pack_into("<" + form, node, place, number)
    descriptor = le("III", SPARE, SPARE, INODES).ljust(BS, b"\0")
    own = {1: front(root, incompat=4 | kind, **says) if "incompat" not in says else front(root, **says), DESCRIPTORS: descriptor, INODES: bytes(7 * 128) + bytes(node)}
    for block, raw in {**own, **more, **dict(laid)}.items():
        whole[block * BS:(block + 1) * BS] = raw.ljust(BS, b"\0")
    return {"a": bytes(whole)}
