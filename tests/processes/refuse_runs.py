#!/usr/bin/env python3
"""refuse_runs.py STORE: example_store over a file, with each of its allocations refused in turn until a run meets none.

tests/processes/refuse.c is loaded before the C library and refuses one allocation of a run, counted from its start. Each run begins with a store
in which some keys have values, and is told to put and to delete. What it has answered is there in the next run, of the command in hand that
or nothing, and the keys that no command names are as they were. Prints how many allocations were refused, how the runs ended, and each run
that is not as it must be; ends with 1 where there is one. No run may say that handles are not settled: a committer tries its batch again. It needs Linux and a C compiler."""
import collections
import os
import shutil
import subprocess
import sys
import tempfile

HERE = os.path.dirname(os.path.abspath(__file__))
STORE = os.path.realpath(sys.argv[1])
FIRST = [(key, 1000 + key) for key in range(1, 6)]
COMMANDS = ["put 2 21", "delete 3", "put 4 41", "put 7 71", "put 2 22"]
KEYS = range(1, 9)


def after(store, commands):
    """What the keys have after these commands."""
    store = dict(store)
    for command in commands:
        word, key, *value = command.split()
        if word == "put":
            store[int(key)] = int(value[0])
        else:
            store.pop(int(key), None)
    return store


def told(command):
    """What the program answers to a command."""
    word, key, *_ = command.split()
    return f"put {key}" if word == "put" else f"deleted {key}"


def run(image, commands, **env):
    """The lines of a run, its status, and what it says of a fault."""
    ended = subprocess.run([STORE, image], input="".join(f"{it}\n" for it in commands).encode(), stdout=subprocess.PIPE, stderr=subprocess.PIPE,
                           env={**os.environ, **env}, timeout=120, pass_fds=[int(env["REFUSE_TO"])] if env else [])
    return ended.stdout.decode().split("\n")[:-1], ended.returncode, ended.stderr.decode()


def refused(shim, image, number):
    """A run with this allocation refused: its lines, its status, what it says of a fault, and whether the allocation was met."""
    read, write = os.pipe()
    lines, status, fault = run(image, COMMANDS, LD_PRELOAD=shim, REFUSE=str(number), REFUSE_FROM_START="1", REFUSE_TO=str(write))
    os.close(write)
    with os.fdopen(read) as says:
        return lines, status, fault, says.read().strip().endswith("refused")


def main():
    wrong, ends = 0, collections.Counter()
    with tempfile.TemporaryDirectory() as folder:
        shim, base, image = (os.path.join(folder, it) for it in ("refuse.so", "base.img", "store.img"))
        subprocess.run(["cc", "-O2", "-shared", "-fPIC", "-o", shim, os.path.join(HERE, "refuse.c")], check=True)
        puts = [f"put {key} {value}" for key, value in FIRST]
        assert run(base, puts) == ([told(it) for it in puts], 0, "")
        number = 0
        while True:
            shutil.copyfile(base, image)
            lines, status, fault, met = refused(shim, image, number)
            acknowledged = 0
            while acknowledged < min(len(lines), len(COMMANDS)) and lines[acknowledged] == told(COMMANDS[acknowledged]):
                acknowledged += 1
            found, ended, _ = run(image, [f"get {key}" for key in KEYS])
            may = [after(dict(FIRST), COMMANDS[:many]) for many in (acknowledged, acknowledged + 1)]
            right = [[f"{key} has {store.get(key, 'nothing')}" for key in KEYS] for store in may]
            if ended != 0 or found not in right or "are settled" in fault:
                print(f"allocation {number}: status {status}, {lines}, {fault}, and then {found}")
                wrong += 1
            if not met:
                break
            ends[status, acknowledged] += 1
            number += 1
    print(f"{number} allocations refused")
    for (status, acknowledged), many in sorted(ends.items()):
        print(f"  {many:3} runs ended with status {status} and {acknowledged} of {len(COMMANDS)} commands answered")
    return int(wrong > 0)


if __name__ == "__main__":
    sys.exit(main())
