#!/usr/bin/env python3
"""fuzz.py JB [COUNT [SEED]]: does JB say what the pages say, of texts and journals that are mostly wrong?

  - COUNT queue texts (1,000 where it is left out), most with a fault: `JB cost` against a reader that was written from docs/TEXTS.md alone;
  - COUNT journals, each a random log of jbref.py in which a few bytes are changed, or which is cut short: `JB dump` against jbref.py, half of
    them with options that leave out lines.
Prints how many of each there were, and those that differ."""
import os
import random
import re
import subprocess
import sys
import tempfile

sys.dont_write_bytecode = True
import jbref

FRONTS = [b"bs 1024", b"bs 2048 wide", b"bs 4096", b"bs 1024 wide"]
WRONG_FRONTS = [b"bs 512", b"bs  1024", b"bs 1024 ", b"bs 01024", b"bs 1024 Wide", b""]
LIMITS = [b"limit 7", b"limit 3", b"limit 300", b"limit 2147483646"]
WRONG_LIMITS = [b"limit 2", b"limit 2147483647", b"limit 03", b"Limit 7", b"limit"]
WRONG_LINES = [b"", b"hh", b" h", b"h ", b"h  w1", b"H w1", b"w1", b"h w1 "]
WRONG_WORDS = [b"w", b"w01", b"r5=00", b"w5=", b"w5=0", b"w5=gg", b"x1", b"w18446744073709551616", b"w1\r", b"w\t1", b"w1=00=00",
               b"w-1", b"w+1", b"w5=" + b"00" * 4097]


def number(text, least, most):
    """A decimal without leading zeros, or None."""
    return int(text) if re.fullmatch(rb"0|[1-9][0-9]*", text) and least <= int(text) <= most else None


def fault_of(word, size):
    """Why this is no word of a handle's line, or None."""
    name, equals, data = word.partition(b"=")
    if name[:1] not in (b"w", b"r") or number(name[1:], 0, 2 ** 64 - 1) is None or (name[:1] == b"r" and equals):
        return "OpWord"
    if equals and (not re.fullmatch(rb"([0-9a-fA-F]{2})+", data) or len(data) // 2 > size):
        return "DataWord"
    return None


def cost_of(text):
    """What `jb cost` says of a text, by docs/TEXTS.md and docs/FORMAT.md: status, standard output, standard error."""
    def wrong(line, cause):
        return 2, b"", b"jb: queue line %d: %s\n" % (line, cause.encode())

    lines = text.split(b"\n")
    lines = lines[:-1] if lines[-1] == b"" else lines
    front = re.fullmatch(rb"bs (1024|2048|4096)( wide)?", lines[0]) if lines else None
    if not front:
        return wrong(1, "BlockSizeLine")
    size, wide = int(front.group(1)), bool(front.group(2))
    limit = number(lines[1][6:], 3, 2147483646) if len(lines) > 1 and lines[1].startswith(b"limit ") else None
    if limit is None:
        return wrong(2, "LimitLine")
    last = {}
    for place, line in enumerate(lines[2:], 3):
        if line != b"h" and not line.startswith(b"h "):
            return wrong(place, "HandleLine")
        for word in line[2:].split(b" ") if line != b"h" else []:
            if fault_of(word, size):
                return wrong(place, fault_of(word, size))
            last[int(word.partition(b"=")[0][1:])] = word[:1]
    copies = sum(kind == b"w" for kind in last.values())
    frees = len(last) - copies
    tags, entries = (size - 28) // (12 if wide else 8), (size - 16) // (8 if wide else 4)
    cost = 1 + copies - (-copies // tags) - (-frees // entries)
    return int(cost > limit), b"cost %d limit %d %s\n" % (cost, limit, b"over" if cost > limit else b"fits"), b""


def word_of(rng):
    home = b"%d" % rng.choice([rng.randrange(2000), rng.randrange(2 ** 64)])
    data = b"=" + rng.randbytes(rng.randrange(1, 6)).hex().encode()
    return rng.choices([b"w" + home, b"w" + home + data, b"r" + home, rng.choice(WRONG_WORDS)], [500, 200, 300, 1])[0]


def text_of(rng):
    """A queue text; about one in two has a fault."""
    lines = [rng.choice(FRONTS if rng.random() < 0.9 else WRONG_FRONTS), rng.choice(LIMITS if rng.random() < 0.9 else WRONG_LIMITS)]
    for _ in range(rng.randrange(6)):
        words = [word_of(rng) for _ in range(rng.choice([0, 1, 2, 3, 200, 600]))]
        lines.append(b" ".join([b"h"] + words) if rng.random() < 0.97 else rng.choice(WRONG_LINES))
    text = b"\n".join(lines) + rng.choice([b"", b"\n", b"\n"])
    if rng.random() < 0.15:
        at = rng.randrange(len(text))
        text = text[:at] + rng.randbytes(1) + text[at + rng.randrange(2):]
    return text


def journals():
    """Random logs of both widths."""
    for seed in range(12):
        subprocess.run([sys.executable, jbref.__file__, "random", str(seed), "1024", "300", "10-90", "log"] + ["wide"] * (seed % 2), check=True)
        yield jbref.read("log")


def changed(journal, rng):
    """The journal with up to four bytes changed, mostly in superblock and headers; one in twenty is cut short."""
    journal = bytearray(journal)
    for _ in range(rng.randrange(5)):
        block = rng.choices([0, rng.randrange(len(journal) // 1024)], [1, 3])[0]
        at = block * 1024 + rng.choices([rng.randrange(84), rng.randrange(1024)], [5, 1])[0]
        journal[at] = rng.choice([0, 1, 2, 3, 4, 5, 8, 16, 255, journal[at] ^ 1, rng.randrange(256)])
    return bytes(journal[:rng.randrange(len(journal))] if rng.random() < 0.05 else journal)


def choice_of(rng):
    """Options of a dump, and the words for them; half of the time none."""
    if rng.random() < 0.5:
        return {}, []
    choice = {"home": rng.choice([None, rng.randrange(8, 92)]), "last": rng.choice([None, rng.randrange(12)]), "alone": rng.random() < 0.1}
    words = ["--%s=%d" % (name, choice[name]) for name in ("home", "last") if choice[name] is not None]
    return choice, words + ["--super"] * choice["alone"]


def shown_of(journal):
    """What `jb dump --super` says of a journal, by jbref.py."""
    try:
        jbref.Super(journal)
        return 0, jbref.shown(journal).encode(), b""
    except jbref.Refused as refused:
        return 1, jbref.shown(journal).encode(), b"jb: %s\n" % str(refused).encode()


def dump_of(journal, choice):
    """What `jb dump` says of a journal, by jbref.py."""
    if choice.pop("alone", False):
        return shown_of(journal)
    try:
        return 0, jbref.dump(journal, **choice).encode(), b""
    except jbref.Refused as refused:
        return 1, b"", b"jb: %s\n" % str(refused).encode()


def said(*words, text=b""):
    done = subprocess.run(words, input=text, capture_output=True)
    return done.returncode, done.stdout, done.stderr


def main():
    jb, count = os.path.abspath(sys.argv[1]), int((sys.argv[2:] or ["1000"])[0])
    rng, wrong = random.Random(int((sys.argv[3:] or ["0"])[0])), 0
    with tempfile.TemporaryDirectory() as folder:
        os.chdir(folder)
        logs = list(journals())
        for what, make, judge in [("queue texts", text_of, cost_of), ("journals", lambda rng: changed(rng.choice(logs), rng), dump_of)]:
            faults = 0
            for _ in range(count):
                given = make(rng)
                with open("given", "wb") as file:
                    file.write(given)
                if judge is cost_of:
                    wanted, got = judge(given), said(jb, "cost", "given")
                else:
                    choice, words = choice_of(rng)
                    wanted, got = judge(given, choice), said(jb, "dump", "given", *words)
                faults += wanted[2] != b""
                if got != wanted:
                    wrong += 1
                    print("%r: %r, and not %r" % (given[:200], got, wanted))
            print("%d %s, %d of them with a fault" % (count, what, faults))
        os.chdir("/")
    print("%d differ" % wrong)
    return 1 if wrong else 0


if __name__ == "__main__":
    sys.exit(main())
