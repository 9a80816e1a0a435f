"""Rows over the words of a command line, and over terminals: what clap says, and the second line of what the program says."""
import re

from rows import FULL, HANDLE, MISSING, RECOVERED, ROWS, THREE, queue, row
import rows_images  # noqa: F401  (its rows are in the table, too)
import rows_own  # noqa: F401
import rows_own_load  # noqa: F401
import rows_summed  # noqa: F401

# ---- words -------------------------------------------------------------------------------------------------------------------


def begins(*starts):
    """A text that begins so, and ends with an LF."""
    return lambda text: text.startswith(starts) and text.endswith("\n")


VERSION = """jb 0.1.0
made for rattle-kit-13b logic dac8208d650f15bf, or a later kit of this logic
proved where rt run, rt test or rt ci has built it; rt try proves nothing
"""
row("--version", 0, VERSION)
row("-V", 0, "jb 0.1.0\n")
for words in ("--help", "help", "-h", "help format", "cost --help", "load -h", "help files", "help locks", "help settings", "help statuses", "help diagnostics"):
    row(words, 0, begins("A block journal", "Makes an image", "Prints the log blocks", "Commits the handles", "Files: ", "Locks: ", "Settings: ", "Status: ",
                         "Diagnostics: "), files={"a": FULL})
row("files", 2, err=begins("Files: "))
row("files a", 2, err=begins("error: unexpected argument 'a' found"))
row("--help", 1, err="jb: WriteFault\n", to="full")
for words in ("mount a", "cost", "cost a b", "check a", "recover", "recover a b", "format a --bs x --journal 33 --homes 16", "format a --bs 1024 --journal 33",
              "format a --bs 1024 --journal 33 --homes -1", "cat a", "cat a x", "cat a 5 -n x", "cat a 5 --journal",
              "dump a --journal", "dump a --extents", "renumber a --journal a", "widen a --journal a", "widen a --extents", "dump a --home", "dump a --home x", "dump a --last -1", "dump a --super=1", "dump a --super --super",
              "completions", "completions bash zsh", "load a", "load a q --threads 18446744073709551616", "--limit 7", "cost --hold a"):
    row(words, 2, err=begins("error: "), files={"a": FULL, "q": queue(HANDLE)})
row("cost \udcff", 2, err="error: invalid UTF-8 was detected in one or more arguments\n")

# words that lack one: that word, and what is said of their use
for words, lacks, use in [("cost", "<FILE>", "cost <FILE>"),
                          ("check a", "<CERT>", "check <FILE> <CERT>"),
                          ("format a --bs 1024 --journal 33", "--homes <N>", "format --bs <N> --journal <N> --homes <N> <IMAGE>"),
                          ("recover", "<IMAGE>", "recover <IMAGE>"),
                          ("cat a.img", "<HOME>", "cat <IMAGE> <HOME>"),
                          ("load a.img", "<FILE>", "load <IMAGE> <FILE>"),
                          ("renumber", "<IMAGE>", "renumber <IMAGE>")]:
    said = "the following required arguments were not provided:\n  %s\n\nUsage: jb %s" % (lacks, use)
    row(words, 2, err="error: %s\n\nFor more information, try '--help'.\n" % said)
# other mistakes, and what is said of them before the help is named
for words, said in [("format a --bs 18446744073709551616", "invalid value '18446744073709551616' for '--bs <N>': number too large to fit in target type"),
                    ("format a --bs x", "invalid value 'x' for '--bs <N>': invalid digit found in string"),
                    ("load a.img a --threads -1",
                     "unexpected argument '-1' found\n\n  tip: to pass '-1' as a value, use '-- -1'\n\nUsage: jb load [OPTIONS] <IMAGE> <FILE>"),
                    ("load a.img a --hold=yes", "unexpected value 'yes' for '--hold' found; no more were expected\n\nUsage: jb load --hold <IMAGE> <FILE>"),
                    ("widen a b", "unexpected argument 'b' found\n\nUsage: jb widen [OPTIONS] <IMAGE>"),
                    ("cost a b", "unexpected argument 'b' found\n\nUsage: jb cost <FILE>"),
                    ("coast a", "unrecognized subcommand 'coast'\n\n  tip: some similar subcommands exist: 'format', 'cost'\n\nUsage: jb <COMMAND>")]:
    row(words, 2, err="error: %s\n\nFor more information, try '--help'.\n" % said)
# words that ask for a text, and the text
HELP = """A block journal in jbd2's format

Usage: jb <COMMAND>

Commands:
  cost         Prints the log blocks that the queue takes as one group
  plan         Prints a least cut of the queue into groups, with its prices
  check        Checks a certificate of the queue, whoever made it
  dump         Prints the committed transactions of a journal, block by block
  cat          Writes home blocks of an image as recovery would leave them
  format       Makes an image: a new journal, and home blocks of zeros after it
  load         Commits the handles of a queue text to an image, run by threads
  recover      Writes home what a journal has committed, and empties its log
  renumber     Restarts the transaction numbers of a clean journal at 1
  widen        Gives a clean journal block numbers of 64 bits
  completions  Prints a script by which a shell completes the words of jb
  help         Print this message or the help of the given subcommand(s)

Options:
  -h, --help     Print help (see more with '--help')
  -V, --version  Print version

Settings and topics: jb help settings, files, locks, statuses, diagnostics
"""
SHOWN = {
    "--version": VERSION,
    "cost -h": """Prints the log blocks that the queue takes as one group

Usage: jb cost <FILE>

Arguments:
  <FILE>  A queue text, or - for standard input

Options:
  -h, --help  Print help (see more with '--help')
""",
    "dump -h": """Prints the committed transactions of a journal, block by block

Usage: jb dump [OPTIONS] <FILE>

Arguments:
  <FILE>  A journal, or an ext2, ext3 or ext4 file system, whose journal
          is found; - for standard input

Options:
      --home <N>           Only the lines that speak of home block N
      --last <N>           Of the transactions only the last N
      --super              Every field of the superblock alone, also of one
                           that is refused
      --summary            The journal at a glance, in place of its lines
      --draw               Draws the log, and the homes written most;
                           for --summary alone
      --journal <JOURNAL>  The file with the journal; FILE has the home blocks
                           alone then
      --extents <LIST>     Where the journal stands within FILE, as debugfs
                           lists its blocks; - or @FILE has it
      --checksums          Takes a journal with checksums, too, and judges it
                           by them
      --ring               Searches the rest of the log for a lost transaction;
                           for --checksums alone
  -h, --help               Print help (see more with '--help')
""",
    "cat -h": """Writes home blocks of an image as recovery would leave them

Usage: jb cat [OPTIONS] <IMAGE> <HOME>

Arguments:
  <IMAGE>  A journal and the home blocks after it, or an ext2, ext3 or
           ext4 file system, whose journal is found
  <HOME>   The number of the first home block

Options:
  -n <N>                How many home blocks [default: 1]
      --hex             Writes lines of hexadecimal digits, as xxd does
      --journal <FILE>  The file with the journal; IMAGE has the home blocks
                        alone then
      --extents <LIST>  Where the journal stands within IMAGE, as debugfs
                        lists its blocks; - or @FILE has it
      --checksums       Takes a journal with checksums, too, and judges it
                        by them
  -h, --help            Print help (see more with '--help')
""",
    "format -h": """Makes an image: a new journal, and home blocks of zeros after it

Usage: jb format [OPTIONS] --bs <N> --journal <N> --homes <N> <IMAGE>

Arguments:
  <IMAGE>  The file to make; an existing file is not overwritten

Options:
      --bs <N>       Bytes of a block: 1024, 2048 or 4096
      --journal <N>  Blocks of the journal, its superblock counted
      --homes <N>    Home blocks after the journal
      --max <N>      The most log blocks of a transaction; 0 for a quarter
                     of the log [default: 0]
      --uuid <HEX>   The UUID in hex [default: 00000000000000000000000000000000]
      --wide         Block numbers of 64 bits
      --sparse       Takes no room for a block before it is first written
  -h, --help         Print help (see more with '--help')
""",
    "load -h": """Commits the handles of a queue text to an image, run by threads

Usage: jb load [OPTIONS] <IMAGE> <FILE>

Arguments:
  <IMAGE>  A journal and the home blocks after it, or an ext2, ext3 or
           ext4 file system, whose journal is found
  <FILE>   A queue text of the image's block size

Options:
      --journal <FILE>  The file with the journal; IMAGE has the home blocks
                        alone then
      --extents <LIST>  Where the journal stands within IMAGE, as debugfs
                        lists its blocks; - or @FILE has it
      --threads <N>     How many threads run the handles, 1 to 64 [default: 1]
      --hold            Commits once all handles have run, as one batch
      --stamp <SEC>     The time of the commit blocks, in seconds since
                        1970 [default: 0]
      --checkpoint      Writes home what is committed, too
  -h, --help            Print help (see more with '--help')
""",
    "recover -h": """Writes home what a journal has committed, and empties its log

Usage: jb recover [OPTIONS] <IMAGE>

Arguments:
  <IMAGE>  A journal and the home blocks after it, or an ext2, ext3 or
           ext4 file system, whose journal is found

Options:
      --extents <LIST>  Where the journal stands within IMAGE, as debugfs
                        lists its blocks; - or @FILE has it
      --journal <FILE>  The file with the journal; IMAGE has the home blocks
                        alone then
      --force           Recovers though the journal seems not its file
                        system's own, or mounts are unknown
      --dry-run         Says what would be done, and writes nothing
      --list            With --dry-run: lists the home blocks that would be
                        written
      --checksums       Takes a journal with checksums, too, and judges it
                        by them
  -h, --help            Print help (see more with '--help')
""",
    "help renumber": """Restarts the transaction numbers of a clean journal at 1

Usage: jb renumber [OPTIONS] <IMAGE>

Arguments:
  <IMAGE>
          A journal and the home blocks after it, or an ext2, ext3 or
          ext4 file system, whose journal is found

Options:
      --extents <LIST>
          Where the journal stands within IMAGE, as debugfs
          lists its blocks; - or @FILE has it

  -h, --help
          Print help (see a summary with '-h')

Of a file system of ext2, ext3 or ext4 that is not mounted its own journal is
found, as jb recover finds it; with --extents LIST the journal stands within
IMAGE, as there.

Status: 0 where the journal is renumbered, 1 where it is refused, by the name
of its fault, and stays as it is, 2 where the file cannot be opened or read.
After jb: NeedsRecovery it is to be recovered first; after jb: DeviceFault,
status 1, the command is to be called again.

Example:
  jb renumber a.img     # renumbered blocks 2 next 1
""",
    "-h": HELP,
}
for words, text in SHOWN.items():
    row(words, 0, text)
for terminal in "in", "in err":
    row("", 2, err=HELP.__eq__, terminal=terminal)

# ---- terminals ---------------------------------------------------------------------------------------------------------------

row("", 0, "cost 7 limit 7 fits\n", stdin=queue(THREE, 7), terminal="err")
row("cost", 2, err=begins("error: "), terminal="err")
row("-V", 0, "jb 0.1.0\n", terminal="err")
row("cost q", 0, "cost 3 limit 8 fits\n", files={"q": queue("w16")}, terminal="err")
row("recover a", 0, "transactions 1 copies 1 revoked 0 next 4\n", files={"a": FULL}, after={"a": RECOVERED}, terminal="err")
# settings stand where they like before a word `--`, and the last one of two counts
for words in "load a q --threads 0 -q", "-q load a q --threads 0", "load --hints a q --status --threads 0 --quiet", "load a q --threads 0 --quiet":
    row(words, 2, err="jb: bad option\n", beside="--threads", terminal="in err")
for words in "load a q --threads 0 --hints", "--quiet --hints load a q --threads 0":
    row(words, 2, err="jb: bad option\n", beside="--threads")
row("load a q --threads 0", 2, err="jb: bad option\n", beside="--threads", how="export JB_HINTS=1")
row("load -q a q --threads 0", 2, err="jb: bad option\n", beside="--threads", how="export JB_HINTS=1")
for value in "0", "11", "":
    row("load a q --threads 0", 2, err="jb: bad option\n", beside="--threads", how="export JB_HINTS='%s' JB_STATUS='%s'" % (value, value))
row("cost -- --hints", 2, err="jb: cannot read --hints\n", beside=MISSING)
row("cost --status --no-progress q", 1, "cost 7 limit 6 over\n", files={"q": queue(THREE, 6)})
row("--hints", 0, "cost 7 limit 7 fits\n", stdin=queue(THREE, 7))
row("recover a --status", 0, "transactions 1 copies 1 revoked 0 next 4\n", files={"a": FULL}, after={"a": RECOVERED})
for words in "recover --statuses a", "recover -qq a", "recover --no-hints a", "recover --json=1 a":
    row(words, 2, err=begins("error: "), files={"a": FULL})

# names with characters that turn the direction of a text, or end a line
for name, shown in [("a\u202eb", "a\\xe2\\x80\\xaeb"), ("\u2066a\u2069", "\\xe2\\x81\\xa6a\\xe2\\x81\\xa9"), ("\u061c", "\\xd8\\x9c"), ("\u2028\u200f", "\\xe2\\x80\\xa8\\xe2\\x80\\x8f"),
                    ("\u2027\u202f\u2065\u206a\u061d", "\u2027\u202f\u2065\u206a\u061d")]:
    row("cost " + name, 2, err="jb: cannot read %s\n" % shown, beside=MISSING)

# ---- completions -------------------------------------------------------------------------------------------------------------


def completes(*words):
    """A script in which each of these stands."""
    return lambda text: all(word in text for word in words)


row("completions bash", 0, completes("complete -F _jb jb\n", " cost plan check dump cat format load recover renumber widen completions\"\n",
                                     "        renumber) options+=\" --extents\" ;;\n", "        cat) options+=\" -n --hex --journal --extents --checksums\" ;;\n"))
row("completions zsh", 0, completes("#compdef jb\n", "        widen) options+=( --extents) ;;\n", "        plan) options+=() ;;\n"))
row("completions fish", 0, completes("complete -c jb -n '__fish_seen_subcommand_from widen' -a ' --extents'\n"))
for name in "csh", "''", "Bash":
    row("completions " + name, 2, err="jb: bad option\n", beside="SHELL")
row("completions bash", 1, err="jb: WriteFault\n", to="full")

# where nobody reads standard output any more, nothing is said on a terminal
for words, files, after in (("dump a", {"a": FULL}, {}), ("cat a 5", {"a": FULL}, {}), ("recover a", {"a": FULL}, {"a": RECOVERED}), ("--help", {}, {})):
    row(words, 1, files=files, after=after, to="gone", terminal="err")
# each kind of line on standard error once more, on a terminal, with each thing that is said beside it
told = set()
for some in [some for some in ROWS if isinstance(some["err"], str) and some["err"].startswith("jb: ")]:
    kind = re.sub(r"\d+", "#", some["err"]), some["beside"]
    if kind not in told and "ulimit -v" not in some["how"]:
        told.add(kind)
        ROWS.append({**some, "terminal": "err"})
        # and in a pipe, with the second line and the finer status, by words and by the environment
        ROWS.append({**some, "words": "--hints " + some["words"] if some["words"] else "--hints"})
        ROWS.append({**some, "words": "--status " + some["words"] if some["words"] else "--status"})
        # -q leaves the system's reason out
        ROWS.append({**some, "words": "-q " + some["words"] if some["words"] else "-q"})
        ROWS.append({**some, "how": "export JB_HINTS=1 JB_STATUS=1; " + some["how"] if some["how"] else "export JB_HINTS=1 JB_STATUS=1"})
