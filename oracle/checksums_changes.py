"""Changes of a log with checksums, and of its superblock, for checksums.py: what is changed, and the bytes."""
import struct

from checksums_reference import COMMIT_SUM, KINDS, ONES, SUM_AT, SUMMED, Log, sum_but, u32
from jbref_read import COMMIT, DESCRIPTOR, LAST_TAG, REVOKE, SAME_UUID
from jbref_write import sealed
from own_image import log_of

# fields of the superblock: offset and bytes
FIELDS = [(at, 4) for at in range(0x0, 0x30, 4)] + [(at, 4) for at in range(0x40, 0x60, 4)] + [(0x50, 1)]
SECTOR = 512


class Changes:
    """The changes of one dirty file system. Each way gives what is changed, and writes: offset in the image and bytes."""

    def __init__(self, image, chance):
        self.image, self.chance, self.size = image, chance, image.size
        self.places = image.recovery.places
        self.log = Log(log_of(image.data, image.size, self.places))
        self.form, self.headed, self.copies = self.log.form, self.log.pieces(*KINDS), self.log.pieces(None)

    def one(self, kind=None):
        """A block with a header, of a committed transaction, of this kind where it has one."""
        found = self.log.pieces(kind) if kind else self.headed
        return self.chance.choice(found or self.headed)

    def write(self, piece, at, new):
        return self.places[piece.place] * self.size + at, bytes(new)

    def with_sum(self, piece, at, new):
        """The whole block with these bytes, and with the checksum that it then should have."""
        block = bytearray(piece.block)
        block[at:at + len(new)] = new
        return self.write(piece, 0, sealed(bytes(block), self.form))

    def bit(self, block, low, high):
        """A place within these, and its byte with a bit turned."""
        at = self.chance.randrange(low, high)
        return at, bytes([block[at] ^ 1 << self.chance.randrange(8)])

    def used(self, piece):
        """Where the bytes of a block end that mean something, but for its checksum."""
        count = {DESCRIPTOR: lambda: 28 + self.form.tag * len(list(self.form.tags(piece.block))),
                 REVOKE: lambda: u32(piece.block, 12), COMMIT: lambda: 60}[piece.kind]()
        return min(count, self.size - self.form.tail)

    # the superblock

    def front(self, at, new):
        """The journal's superblock with these bytes and a right checksum."""
        raw = bytearray(self.log.data[:SUMMED])
        raw[at:at + len(new)] = new
        struct.pack_into(">I", raw, SUM_AT, sum_but(ONES, raw, SUM_AT))
        return [(self.places[0] * self.size, bytes(raw))]

    def super_bit(self):
        at, new = self.bit(self.log.data, 0, self.chance.choice([0x60, 0x100, SUMMED]))
        return "superblock, a bit", [(self.places[0] * self.size + at, new)]

    def super_field(self):
        at, wide = self.chance.choice(FIELDS)
        now, most = int.from_bytes(self.log.data[at:at + wide], "big"), (1 << 8 * wide) - 1
        value = self.chance.choice([0, 1, 2, most, now + 1, now - 1, now ^ 1 << self.chance.randrange(8 * wide),
                                    self.log.sup.maxlen // 2, self.log.sup.maxlen - 1])
        return "superblock, a field, sum right", self.front(at, (value & most).to_bytes(wide, "big"))

    def features(self):
        """One feature more or less."""
        at, bit = self.chance.choice([(0x24, 1), (0x2C, 1)] + [(0x28, 1 << i) for i in (0, 1, 2, 3, 3, 4, 4, 5)])
        return "superblock, a feature, sum right", self.front(at, struct.pack(">I", u32(self.log.data, at) ^ bit))

    def other_uuid(self):
        new = self.chance.choice([bytes(16), self.chance.randbytes(16)])
        return "superblock, another UUID, sum right", self.front(0x30, new)

    # one block with a header

    def header(self):
        piece = self.one()
        return "%s, header" % KINDS[piece.kind], [self.write(piece, *self.bit(piece.block, 0, 12))]

    def body(self):
        piece = self.one()
        return "%s, body" % KINDS[piece.kind], [self.write(piece, *self.bit(piece.block, 12, self.used(piece)))]

    def own_sum(self):
        piece = self.one()
        at = self.form.sum_at(piece.kind, piece.block)
        return "%s, its sum" % KINDS[piece.kind], [self.write(piece, *self.bit(piece.block, at, at + 4))]

    def rest(self):
        piece = self.one()
        low = min(self.used(piece), self.size - 5)
        return "%s, unused bytes" % KINDS[piece.kind], [self.write(piece, *self.bit(piece.block, low, self.size - 4))]

    def flags(self):
        """A flag of a tag turned: the last tag, or another UUID, or escaped."""
        piece = self.one(DESCRIPTOR)
        tags, at, turned = list(self.form.tags(piece.block)), 12, self.chance.randrange(99)
        for _, flags, _ in tags[:turned % len(tags)]:
            at += self.form.tag + (0 if flags & SAME_UUID else 16)
        new = u32(piece.block, at + 4) ^ self.chance.choice([1, SAME_UUID, LAST_TAG, LAST_TAG])
        is_right = self.chance.random() < 0.3
        put = self.with_sum if is_right else self.write
        return "descriptor, flags" + ", sum right" * is_right, [put(piece, at + 4, struct.pack(">I", new))]

    def last_tag(self):
        """The last descriptor of the log claims more blocks than it has, the commit block behind them among these."""
        piece = self.log.pieces(DESCRIPTOR)[-1]
        tags, at = list(self.form.tags(piece.block)), 12
        for _, flags, _ in tags[:-1]:
            at += self.form.tag + (0 if flags & SAME_UUID else 16)
        new = u32(piece.block, at + 4) ^ LAST_TAG
        return "the last descriptor, LAST_TAG", [self.write(piece, at + 4, struct.pack(">I", new))]

    def torn(self):
        """The first sectors are new, and those behind them are not; or the other way round."""
        piece = self.one(self.chance.choice([DESCRIPTOR, REVOKE, COMMIT, COMMIT]))
        cut, old = SECTOR * self.chance.randrange(1, self.size // SECTOR), self.other_block()
        if self.chance.random() < 0.7:
            what = "%s, torn after %s" % (KINDS[piece.kind], "its first sector" if cut == SECTOR else "some sectors")
            return what, [self.write(piece, cut, old[cut:])]
        return "%s, torn before some sectors" % KINDS[piece.kind], [self.write(piece, 0, old[:cut])]

    def other_block(self):
        """Bytes that may stand in a block of the log."""
        found = self.chance.choice(self.headed + self.copies)
        return self.chance.choice([bytes(self.size), self.chance.randbytes(self.size), found.block, found.block])

    def whole_block(self):
        piece = self.chance.choice(self.headed * 3 + self.copies)
        return "%s, another block" % KINDS.get(piece.kind, "data"), [self.write(piece, 0, self.other_block())]

    def swapped(self):
        one, other = self.one(), self.chance.choice(self.headed + self.copies)
        return "two blocks swapped", [self.write(one, 0, other.block), self.write(other, 0, one.block)]

    def earlier(self):
        """A commit time that is below that of the transaction before it."""
        piece, is_right = self.one(COMMIT), self.chance.random() < 0.5
        put, new = self.with_sum if is_right else self.write, self.chance.choice([0, 1, 1 << 30])
        return "commit, earlier time" + ", sum right" * is_right, [put(piece, 48, struct.pack(">Q", new))]

    def count(self):
        piece = self.one(REVOKE)
        if piece.kind != REVOKE:
            return self.body_right()
        now = u32(piece.block, 12)
        value = self.chance.choice([0, 12, 15, 16, now - 1, now + 1, now - 8, self.size - 5, self.size - 4, self.size - 3,
                                    self.size, self.size + 1, 1 << 31, (1 << 32) - 1])
        return "revoke, r_count, sum right", [self.with_sum(piece, 12, struct.pack(">I", value))]

    def body_right(self):
        piece = self.one()
        at, new = self.bit(piece.block, 12, self.used(piece))
        if piece.kind == COMMIT:
            at, new = COMMIT_SUM + 4 + at % 40, new
        return "%s, body, sum right" % KINDS[piece.kind], [self.with_sum(piece, at, new)]

    def header_right(self):
        """Another number or type."""
        piece = self.one()
        at, now = self.chance.choice([(4, piece.kind), (8, piece.number)])
        new = now + self.chance.choice([-1, 1, 2, 3, 4]) if at == 4 else now ^ 1 << self.chance.randrange(32)
        return "%s, header, sum right" % KINDS[piece.kind], [self.with_sum(piece, at, struct.pack(">I", new % 2**32))]

    # data

    def data(self):
        piece = self.chance.choice(self.copies)
        at, new = self.bit(piece.block, 0, self.size)
        new = self.chance.choice([new, self.chance.randbytes(1), self.chance.randbytes(min(SECTOR, self.size - at))])
        living = any(piece is other for other in self.log.living()[0])
        return "data, %s" % ("written" if living else "revoked"), [self.write(piece, at, new)]

    def tag_sum(self):
        """A wrong checksum of data in a right descriptor."""
        piece = self.one(DESCRIPTOR)
        at = 12 + (12 if self.form.version == 3 else 4)
        return "descriptor, a tag's sum, sum right", [self.with_sum(piece, *self.bit(piece.block, at, at + 2))]

    # more than one block

    def suspect(self):
        """A wrong block in a transaction whose commit block is gone."""
        found = self.chance.choice(self.log.committed)
        wrong = self.chance.choice([piece for piece in found if piece.kind in (DESCRIPTOR, REVOKE)] or found)
        gone = self.write(found[-1], 0, self.chance.choice([bytes(self.size), self.other_block()]))
        low = 12 if wrong.kind else 0
        last = "the last" if found is self.log.committed[-1] else "another"
        return "a wrong block, no commit, %s" % last, [self.write(wrong, *self.bit(wrong.block, low, self.size)), gone]

    def wrong_earlier(self):
        """A wrong block, and a commit time below the last one's, with its checksum."""
        found = self.chance.choice(self.log.committed)
        wrong = self.chance.choice([piece for piece in found if piece.kind in (DESCRIPTOR, REVOKE)] or found)
        commit = self.with_sum(found[-1], 48, bytes(8))
        return "a wrong block, earlier time", [self.write(wrong, *self.bit(wrong.block, 12, self.size)), commit]

    def unfinished(self):
        pieces = self.log.unfinished or self.headed
        piece = self.chance.choice(pieces)
        return "behind the last commit" if self.log.unfinished else "a bit", [
            self.write(piece, *self.bit(piece.block, 0, self.size))]

    def anywhere(self):
        """Up to four bytes of the log, or of the journal."""
        low, high = self.chance.choice([(0, self.log.stop), (0, len(self.places) - 1)])
        writes = []
        for _ in range(self.chance.randrange(1, 5)):
            place = self.log.block(self.chance.randrange(low, high))[0]
            at = self.chance.randrange(self.chance.choice([64, self.size]))
            writes.append((self.places[place] * self.size + at, self.chance.randbytes(self.chance.choice([1, 1, 4]))))
        return "random bytes", writes


WAYS = [Changes.super_bit, Changes.super_field, Changes.features, Changes.other_uuid, Changes.header, Changes.header, Changes.body,
        Changes.body, Changes.own_sum, Changes.rest, Changes.flags, Changes.torn, Changes.torn, Changes.whole_block,
        Changes.whole_block, Changes.swapped, Changes.earlier, Changes.count, Changes.body_right, Changes.header_right,
        Changes.data, Changes.data, Changes.tag_sum, Changes.suspect, Changes.suspect, Changes.wrong_earlier,
        Changes.unfinished, Changes.last_tag, Changes.anywhere, Changes.anywhere]
# those after which much of a log can still be read
READABLE = [Changes.data, Changes.whole_block, Changes.tag_sum, Changes.data, Changes.anywhere, Changes.suspect,
            Changes.swapped, Changes.torn, Changes.rest]


def changes(image, chance, count, ways=WAYS):
    """So many changes, all ways in turn."""
    made = Changes(image, chance)
    for i in range(count):
        yield ways[i % len(ways)](made)
