"""`JB dump --checksums`, with `--ring` and without, and `JB cat --checksums` of changed logs beside checksums_reference.py, for checksums.py."""
import random

from checksums_changes import READABLE, changes
from checksums_reference import KINDS, Log, dump
from jbref_read import Refused
from own_image import Checked, Held, Image, log_of, put


def answered(read):
    """Status, standard output and error of what the reference reads."""
    try:
        return 0, read().strip(), ""
    except Refused as fault:
        return 1, "", "jb: %s" % fault


def lost_in(log):
    """What `dump --ring` refuses: the first wrong block of the unfinished transaction, or else the first commit block behind
    the committed ones; nothing of a clean log, or of one without checksums."""
    found = log.commits_behind() if log.form.version and log.sup.start else []
    wrong = log.wrong(piece for piece in log.unfinished if piece.kind)
    if found and wrong:
        return "BadChecksum %s %d" % (KINDS[wrong[0].kind], wrong[0].place)
    return "Lost %d" % found[0].place if found else None


def searched(log):
    """The same of `dump --ring`: where a transaction is lost, that is told after the lines."""
    status, text, fault = answered(lambda: dump(log))
    lost = None if status else lost_in(Log(log))
    return (1, text, "jb: %s" % lost) if lost else (status, text, fault)


def hexed(data):
    """As xxd prints bytes."""
    lines = []
    for at in range(0, len(data), 16):
        part = data[at:at + 16]
        pairs = " ".join(part[i:i + 2].hex() for i in range(0, 16, 2))
        lines.append("%08x: %s  %s" % (at, pairs, "".join(chr(byte) if 32 <= byte < 127 else "." for byte in part)))
    return "\n".join(lines)


class Texts:
    """One dirty file system: its journal as a file, and the whole."""

    def __init__(self, jb, image):
        self.jb, self.image, self.data = jb, image, bytearray(image.data)
        self.file = Held("cat.img", image.data)
        self.copies = Log(self.log()).pieces(None)
        self.faults, self.wrong, self.lost = [], 0, 0

    def log(self):
        return bytes(log_of(self.data, self.image.size, self.image.recovery.places))

    def tried(self, chance, what, writes):
        undo = put(self.data, writes)
        log = self.log()
        with open("dump.journal", "wb") as file:
            file.write(log)
        wanted = answered(lambda: dump(log))
        self.wrong += wanted[1].count(" wrong\n")
        self.expect("dump, " + what, self.jb.run("dump", "--checksums", "dump.journal"), wanted)
        wanted = searched(log)
        self.lost += wanted[2].startswith("jb: Lost")
        self.expect("dump --ring, " + what, self.jb.run("dump", "--checksums", "--ring", "dump.journal"), wanted)
        if not what.startswith("superblock"):
            self.file.put(writes)
            home = chance.choice(self.copies).tag[0]
            wanted = answered(lambda: hexed(Log(log).peeked(home) or self.block(home)))
            self.expect("cat, " + what, self.jb.run("cat", "--checksums", "cat.img", str(home), "--hex"), wanted)
            self.file.put([(at, self.image.data[at:at + len(new)]) for at, new in writes])
        put(self.data, undo)

    def block(self, number):
        return bytes(self.data[number * self.image.size:(number + 1) * self.image.size])

    def expect(self, what, ended, wanted):
        if ended != wanted:
            self.faults.append("%s: %s, and not %s" % (what, [str(word)[-200:] for word in ended], wanted[2] or wanted[1][-200:]))


def tried(jb, images, chance, count):
    """So many changes over these file systems; how many texts are wrong."""
    wrong = 0
    for kind, path in images:
        texts, each = Texts(jb, Image(kind, path, Checked)), -(-count // len(images))
        for change in changes(texts.image, random.Random(chance.randrange(1 << 30)), each, READABLE):
            texts.tried(chance, *change)
        wrong += len(texts.faults)
        print("%s: the texts of %d changed logs, %d lines with a wrong copy, %d logs that have lost a transaction: %s" % (
            kind.name, each, texts.wrong, texts.lost, "WRONG: " + "; ".join(texts.faults[:9]) if texts.faults else "as the reference's"), flush=True)
    return wrong
