"""Changed lists of a journal's blocks, for own_journal.py: a list is taken where it is the right one, and else refused.

A list is made of the right one's stretches, changed in one of the ways below, and written as debugfs prints it or as
plain numbers, with white space of any kind between the words."""
import collections

from ext_finder import places_of
from own_image import Image, is_meant, whole

NAMES = ["ext3-1k", "ext3-4k", "ext3-1k-272-stretches", "ext4-1k-depth-1", "ext4-1k-depth-2", "ext4-4k-depth-1",
         "ext4-1k-meta_bg", "ext4-4k-64bit"]
SPACES = [" ", ",", ", ", "\t", "\n", "\r\n", "\v", "\f", "  ", " ,\n"]


def some(chance, stretches):
    return chance.randrange(len(stretches))


def shifted(chance, own):
    at, by = some(chance, own), chance.choice([-64, -2, -1, 1, 2, 64, 4096])
    own[at] = (max(0, own[at][0] + by), own[at][1])


def shortened(chance, own):
    at = some(chance, own)
    low, count = own[at]
    less = chance.randrange(1, count + 1) if chance.random() < 0.5 else 1
    own[at:at + 1] = [chance.choice([(low, count - less), (low + less, count - less)])] if count > less else []


def lengthened(chance, own):
    at, more = some(chance, own), chance.choice([1, 1, 2, 17])
    low, count = own[at]
    own[at] = chance.choice([(low, count + more), (max(0, low - more), count + more)])


def moved(chance, own):
    """One block more in a stretch and one less in the next: the number of blocks stays."""
    split(chance, own)
    at = chance.randrange(len(own) - 1)
    (low, count), (next_low, next_count) = own[at], own[at + 1]
    own[at:at + 2] = [(low, count + 1)] + ([(next_low + 1, next_count - 1)] if next_count > 1 else [])


def split(chance, own):
    """The longest stretch as two."""
    at = max(range(len(own)), key=lambda i: own[i][1])
    low, count = own[at]
    first = chance.randrange(1, count)
    own[at:at + 1] = [(low, first), (low + first, count - first)]


def swapped(chance, own):
    split(chance, own)
    one, other = some(chance, own), some(chance, own)
    own[one], own[other] = own[other], own[one]


def missing(chance, own):
    split(chance, own)
    del own[some(chance, own)]


def twice(chance, own):
    own.insert(some(chance, own), own[some(chance, own)])


def hull(chance, own):
    """From one stretch on the blocks follow each other, those of the map among them, as many as there should be."""
    at = some(chance, own)
    own[at:] = [(own[at][0], sum(count for _, count in own[at:]))]


def ended(chance, own):
    own[1 + some(chance, own):] = []


def more(chance, own):
    own.append((chance.randrange(1, 9000), chance.choice([1, 3, 100])))


def turned(_, own):
    own[1:] = own[:0:-1]


def other_blocks(chance, own):
    """The first block, and others than the journal's behind it."""
    count = sum(count for _, count in own) - 1
    own[:] = [(own[0][0], 1), (chance.randrange(1, 9000), count)]


def parted(chance, own):
    for _ in range(chance.randrange(1, 5)):
        split(chance, own)


def same(*_):
    pass


WAYS = [shifted, shortened, lengthened, moved, swapped, missing, twice, hull, ended, more, turned, other_blocks, parted,
        same]


def written(chance, own, nodes):
    """The words of a list: as debugfs prints it, as plain numbers, or mixed, with the map's blocks or without."""
    words, at = [], 0
    numbered = chance.choice([1.0, 0.0, 0.5])
    for low, count in own:
        blocks = "%d-%d" % (low, low + count - 1) if count > 1 else "%d" % low
        number = "(%d-%d):" % (at, at + count - 1) if count > 1 else "(%d):" % at
        words.append((number if chance.random() < numbered else "") + blocks)
        at += count
    for name, block in nodes if chance.random() < 0.5 else []:
        words.insert(chance.randrange(len(words) + 1), "(%s):%s" % (name, block))
    return words


def mixed(chance, words, own, nodes):
    """Some of the map's blocks as plain numbers where debugfs has their names; the blocks that the list then has."""
    stretches = list(own)
    for _, block in chance.sample(nodes, chance.randrange(1, len(nodes) + 1)):
        at = chance.randrange(len(stretches) + 1)
        stretches.insert(at, (int(block), 1))
    words[:] = written(chance, stretches, [])
    return stretches


def joined(chance, words):
    spaces = [" "] if chance.random() < 0.5 else SPACES
    text = "".join(word + chance.choice(spaces) for word in words)
    return text.rstrip() if chance.random() < 0.5 else chance.choice(spaces) + text


class Lists:
    """The lists of one file system."""

    def __init__(self, jb, image, own):
        self.jb, self.image, self.own = jb, image, own
        self.nodes = [tuple(word[1:].split("):")) for word in image.words() if not word[1].isdigit()]
        image.new("lists.img")

    def tried(self, chance, way):
        """The way, the answer, and whether it is wrong."""
        own = list(self.image.recovery.stretches)
        way(chance, own)
        words, name = written(chance, own, self.nodes), way.__name__
        if self.nodes and way is same and chance.random() < 0.7:
            own, name = mixed(chance, words, own, self.nodes), "map's blocks"
        text = joined(chance, words)
        is_right = places_of(own) == self.image.recovery.places
        status, line, fault = self.jb.run("recover", "lists.img", "--extents", text)
        left = whole("lists.img")
        if status == 0:
            wrong = not is_meant(left, self.image.meant, self.image.fs) or line != self.image.recovery.line
            wrong = wrong or (self.own and not is_right)
        else:
            wrong = left != self.image.data or not fault.startswith("jb: ") or is_right
        if left != self.image.data:
            self.image.new("lists.img")
        answer = "taken" if status == 0 else " ".join(fault.split()[1:3])
        fault = "%r: %s %s %s" % (text[:200], status, line, fault)
        return ("the right list: " if is_right else "") + name, answer, fault if wrong else None


def tried(jb, images, chance, count, own):
    """So many lists over the file systems; how many are answered wrongly. A JB that finds the journal (`own`) has
    to refuse all but the right list; another those with which it leaves another image."""
    lists = [Lists(jb, Image(*one), own) for one in images if one[0].name in NAMES]
    answers, lost, refused = collections.defaultdict(collections.Counter), 0, 0
    for part, each in enumerate(lists):
        each.image.new("lists.img")
        for i in range(part, count, len(lists)):
            name, answer, fault = each.tried(chance, WAYS[i // len(lists) % len(WAYS)])
            answers[name][answer] += 1
            lost += fault is not None and answer == "taken"
            refused += fault is not None and answer != "taken"
            if fault and lost + refused <= 20:
                print("%s, %s: WRONG: %s" % (each.image.name, name, fault), flush=True)
    for name, counted in sorted(answers.items()):
        print("lists, %s: %s" % (name, ", ".join("%s %d" % one for one in counted.most_common())), flush=True)
    print("%d changed lists over %d file systems: %d taken wrongly, %d refused wrongly" % (
        count, len(lists), lost, refused), flush=True)
    return lost + refused
