#!/usr/bin/env python3
"""Bad days: commands of `jb` and the examples over files whose calls fail, on disks that are full, and past a limit of a file's size.

    tests/processes/bad_day.py JB STORE ACCOUNTS [all]

tests/processes/fail.c is loaded before the C library. It fails one call of a run on its files, or all from that one on: each read, write and sync in
turn, by errors of the system or by half of its bytes. Each call fails for two of these causes; with `all`, for each. Then no file may be longer than 0.9 to
3 MB; and, as root, disks have 0.9 to 3 MB (tmpfs) and hold images that are sparse. A run that says that all is well has to have done it. Any other names the
call's reason, on the line of the fault or on the next one, and says what to do about it (`jb` with --hints); leaves nothing of an image that it was to
make; and keeps what was replied to, or counted as settled. Then, with room, the same program goes on. Only a read of `jb dump` need not name its
reason (`nameless`), where it gives fewer bytes. Prints a line for each part and for each run that is not as it must be; ends with 1 where there is one. It needs Linux and a C
compiler."""
import concurrent.futures
import os
import resource
import signal
import subprocess
import sys
import tempfile

sys.dont_write_bytecode = True
from bad_programs import ROWS, UNFINISHED, Accounts, Command, Store, found_in, queue_of, run  # noqa: E402
from disks import KIB, disk, enlarge, fill  # noqa: E402

HERE = os.path.dirname(os.path.abspath(__file__))
# of each cause: the number of the system's error, its words, and what is to be done about it
CAUSES = {
    "ENOSPC": (28, "No space left on device (os error 28)", "make room on its file system"),
    "EDQUOT": (122, "Disk quota exceeded (os error 122)", "make room within its quota"),
    "EFBIG": (27, "File too large (os error 27)", "limit of a file's size"),
    "EIO": (5, "Input/output error (os error 5)", "look at the system's log"),
    "EPERM": (1, "Operation not permitted (os error 1)", "see to its permission"),
    "short read": (0, "fewer bytes were moved", "put back a copy"),
    "short write": (0, "fewer bytes were moved", "make room"),
}
INJECTED = ["ENOSPC", "EIO", "EDQUOT", "EPERM", "short write"]
# what is to be done where a file was not made is one text for all causes, and so where it was not opened
UNMADE = {"ENOSPC": "the room", "EDQUOT": "the room", "EFBIG": "the room", "EPERM": "the permission"}
UNREAD = "it is to be a file that may be read"
# an image of these sizes has 1,536 KiB; its last home blocks are past 1,280 KiB
SIZES = ["--bs", "1024", "--journal", "512", "--homes", "1024"]
HANDLES = [{home: 1 + home % 250 for home in range(at, at + 32)} for at in range(0, 1024, 32)]
KIBS = [900, 1000, 1100, 1200, 1300, 1500, 1532, 1540, 1800, 2048, 2500, 3072]
wrong = 0


def expect(what, why):
    """Prints what is wrong, where something is."""
    global wrong
    if why:
        wrong += 1
        print("WRONG:", what + ":", why)


def unnamed(text, causes, is_advised):
    """What is wrong of the text of a fault that has one of these causes, or None."""
    text = text.decode()
    lines = text.splitlines()
    for cause in causes:
        _, reason, advice = CAUSES[cause]
        # the second line of `jb` begins so
        at = [n for n, line in enumerate(lines) if reason in line and not (line.startswith("jb:  ") and lines[n - 1].startswith("jb:  "))]
        if not at or not lines[0].startswith("jb: ") and at[0] > 1:
            continue
        if lines[0].startswith(("jb: cannot make", '{"fault":"cannot make"')):
            advice = UNMADE.get(cause, "")
        elif lines[0].startswith(("jb: cannot read", '{"fault":"cannot read"')):
            advice = UNREAD
        elif lines[0].startswith(("jb: ReadFault", '{"fault":"ReadFault"')):
            advice = "the file cannot be read to the end of its journal"
        elif "the image cannot be opened or made" in lines[0]:
            advice = ""
        return None if not is_advised or advice in text else "%s: it does not say %r: %r" % (cause, advice, text)
    return "it does not say %r: %r" % (CAUSES[causes[0]][1], text)


def judged(program, room, answer, causes, is_advised, in_making=False, make_room=None):
    """What is wrong of a run that met one of these causes or none, and, once there is room, of what it has left and of the next run; or None."""
    if make_room:
        make_room()
    if answer[0] == 0:
        return program.whole(room, answer)
    if answer[0] not in (1, 2):
        return "it ends with %d: %r" % (answer[0], answer[2])
    first = answer[2].split(b"\n")[0]
    # of a read that gives fewer bytes the system has no number
    is_nameless = first in program.nameless or causes == ["short read"] and first == b"jb: ReadFault"
    why = None if is_nameless else unnamed(answer[2], causes, is_advised)
    return why or program.kept(room, answer, in_making) or program.goes_on(room)


def failing(shim, program, room, number, cause, stays):
    """A run whose call of this number fails for this cause: its answer, whether it advises, and the calls that failed, as (kind, file); None for these
    where it ended without a word."""
    words, is_advised = program.started(number)
    read, write = os.pipe()
    env = dict(os.environ, LD_PRELOAD=shim, FAIL_UNDER=room, FAIL_TO=str(write), FAIL_CALL=str(number), FAIL_WITH=str(CAUSES[cause][0]))
    try:
        answer = run(words, room, program.given, env={**env, "FAIL_STAYS": "1"} if stays else env, pass_fds=[write])
    finally:
        os.close(write)
        with os.fdopen(read) as says:
            told = says.read().splitlines()
    if not told or not told[-1].startswith("calls "):
        return answer, is_advised, None
    return answer, is_advised, [(line.split(" ", 2)[0], line.split(" ", 2)[2]) for line in told if not line.startswith("calls ")]


def day(task):
    """Fails each call of a program in turn, the first for the cause of this number. Gives how many runs there were, and what is wrong, up to the first."""
    folder, shim, program, first, step = task
    runs, number = 0, 1
    with tempfile.TemporaryDirectory(dir=folder) as room:
        while True:
            cause, stays = INJECTED[(number + first) % len(INJECTED)], (number + first) % 2 == 1
            program.lay(room)
            answer, is_advised, met = failing(shim, program, room, number, cause, stays)
            if met is None:
                return program.name, runs, "call %d, %s: it ended without a word: %r" % (number, cause, answer)
            if not met:
                return program.name, runs, None
            kind, file = met[0]
            if cause == "short write":
                cause = {"read": "short read", "write": cause, "sync": "EIO"}[kind]
            why = judged(program, room, answer, [cause], is_advised, file.endswith(UNFINISHED) or file == room)
            if why:
                return program.name, runs, "%s %d, %s: %s" % (kind, number, cause, why)
            runs += 1
            number += step(kind)


def days(folder, commands, store, accounts, is_all):
    """Each program, with each of its calls failing."""
    shim = os.path.join(folder, "fail.so")
    subprocess.run(["cc", "-O2", "-shared", "-fPIC", "-o", shim, os.path.join(HERE, "fail.c")], check=True)
    firsts = range(len(INJECTED) if is_all else 2)
    tasks = [(folder, shim, program, first, lambda _: 1) for program in [*commands, *store] for first in firsts]
    # a run of the accounts reads some hundred blocks
    tasks += [(folder, shim, program, first, lambda kind: 9 if kind == "read" and not is_all else 1) for program in accounts for first in firsts]
    counts = {}
    with concurrent.futures.ThreadPoolExecutor(4) as pool:
        for name, runs, why in pool.map(day, tasks):
            counts[name] = counts.get(name, 0) + runs
            expect(name, why)
    for name, runs in counts.items():
        print("%-44s %4d calls failed" % (name, runs))


def limited(folder, programs):
    """Each program where no file may be longer than that, with standard error in a file."""
    runs = failed = 0
    for kib in [100, 200, 260, 280, *KIBS]:
        for number, program in enumerate(programs):
            with tempfile.TemporaryDirectory(dir=folder) as room:
                program.lay(room)
                words, is_advised = program.started(number)

                def limit(most=kib * KIB):
                    signal.signal(signal.SIGXFSZ, signal.SIG_IGN)
                    resource.setrlimit(resource.RLIMIT_FSIZE, (most, most))

                told = os.path.join(folder, "told")
                with open(told, "wb") as file:
                    ended = subprocess.run(words, cwd=room, input=program.given, stdout=subprocess.PIPE, stderr=file, timeout=120, preexec_fn=limit)
                with open(told, "rb") as file:
                    answer = ended.returncode, ended.stdout, file.read()
                in_making = "image" not in program.files and not any(name.endswith("image") for name in found_in(room))
                expect("%s, files of %d KiB at most" % (program.name, kib), judged(program, room, answer, ["EFBIG", "short write"], is_advised, in_making))
                runs, failed = runs + 1, failed + (answer[0] != 0)
    print("files of 100 to %d KiB at most: %d runs, %d failed" % (KIBS[-1], runs, failed))


def full(programs):
    """Each program on disks with so much room in all, and on those where so many blocks of it are left."""
    runs = failed = 0
    for at, kib in enumerate(KIBS):
        for left in (None, [0, 3, 17, 60][at % 4]):
            for number, program in enumerate(programs):
                with disk(kib) as folder:
                    if folder is None:
                        print("full disks: not tried, as none can be mounted here")
                        return
                    room = os.path.join(folder, "room")
                    os.mkdir(room)
                    program.lay(room)
                    if left is not None:
                        fill("filler", left)
                    words, is_advised = program.started(number)
                    answer = run(words, room, program.given)
                    in_making = not program.files and "image" not in os.listdir(room)
                    why = judged(program, room, answer, ["ENOSPC", "short write"], is_advised, in_making, lambda: enlarge(folder, 16384))
                    expect("%s on a disk of %d KiB, of which %s blocks are left" % (program.name, kib, left), why)
                    runs, failed = runs + 1, failed + (answer[0] != 0)
    print("disks of %d to %d KiB: %d runs, %d failed" % (KIBS[0], KIBS[-1], runs, failed))


def large(jb, room):
    """The commands of `jb` on an image that is as large as the disks: one that is made, loaded and recovered."""
    made = Command(jb, room, " ".join(["format", "a", *SIZES]), {}, False)
    loads = [Command(jb, room, "load a q --threads 1" + words, {"a": made.after["a"], "q": queue_of(handles, 127)}, False, handles, 512)
             for words, handles in ((" --checkpoint", HANDLES), ("", HANDLES[-8:]))]
    # its log is full of the last home blocks
    loads[1].lay(room)
    run(loads[1].words, room)
    return [made, loads[0], Command(jb, room, "recover a", {"a": found_in(room)["a"]}, False)]


def main():
    jb, store, accounts = (os.path.realpath(word) for word in sys.argv[1:4])
    is_all = "all" in sys.argv[4:]

    def fresh(make, *args):
        with tempfile.TemporaryDirectory() as room:
            return make(*args[:1], room, *args[1:])

    commands = [fresh(Command, jb, *row) for row in ROWS]
    stores, banks = [fresh(Store, store, new) for new in (True, False)], [fresh(Accounts, accounts, new) for new in (True, False)]
    larger = fresh(large, jb)
    # a sync of such a disk takes no time
    with disk(1 << 18) as mounted, tempfile.TemporaryDirectory() as other:
        folder = os.path.realpath(mounted or other)
        days(folder, commands, stores, banks, is_all)
        limited(folder, [*larger, *stores, *banks])
    full([*larger, *stores, *banks])
    print("bad_day.py: %d wrong" % wrong)
    return 1 if wrong else 0


if __name__ == "__main__":
    sys.exit(main())
