#!/usr/bin/env python3
"""Kills example_store at random moments, and compares what the store holds after the next run has recovered the journal.

    tests/processes/kill_store.py PROGRAM [KILLS]

The image stays from run to run. Each run is asked for the value of every key, and then told to put and to delete at random. What it has
answered is kept, and the command after these is kept or not: the values of the next run must be those of one of the two. Prints how many runs there
were, how many commands were answered and how many of the commands in hand were kept, and ends with 1 where a value was wrong.
"""
import os
import random
import signal
import subprocess
import sys
import tempfile

KEYS = range(1, 100)


def run(program, image, commands, patience):
    """The whole lines of one run, and whether it ended by itself before it was killed after this many seconds."""
    started = subprocess.Popen([program, image], stdin=subprocess.PIPE, stdout=subprocess.PIPE, stderr=subprocess.STDOUT)
    ended = True
    try:
        told = started.communicate("".join(commands).encode(), timeout=patience)[0]
    except subprocess.TimeoutExpired:
        ended = False
        started.send_signal(signal.SIGKILL)
        told = started.communicate()[0]
    return told.decode().split("\n")[:-1], ended


def answer(store, command):
    """What the store answers to a command, by the log of what it was told; the store is changed so."""
    word, key, *value = command.split()
    if word == "put":
        store[key] = value[0]
        return f"put {key}"
    if word == "delete":
        store.pop(key, None)
        return f"deleted {key}"
    return f"{key} has {store.get(key, 'nothing')}"


def drawn(chance):
    """A command that changes the store."""
    key = chance.choice(KEYS)
    return f"delete {key}\n" if chance.random() < 0.3 else f"put {key} {chance.randrange(1, 2**64)}\n"


def main():
    program = os.path.abspath(sys.argv[1])
    wanted = int(sys.argv[2]) if len(sys.argv) > 2 else 200
    chance = random.Random(1)
    ask = [f"get {key}\n" for key in KEYS]
    stores = [{}]
    killed = ran = answered = stood = wrong = 0
    with tempfile.TemporaryDirectory() as folder:
        image = os.path.join(folder, "store.img")
        # a journal that was not made whole has nothing to recover
        wrong += run(program, image, [], 60) != ([], True)
        while killed < wanted and ran < 20 * wanted and not wrong:
            ran += 1
            commands = ask + [drawn(chance) for _ in range(400)]
            lines, ended = run(program, image, commands, chance.uniform(0.005, 0.06))
            killed += not ended
            # a run that was killed before it had told all values shows nothing
            if len(lines) < len(ask):
                continue
            told = lines[:len(ask)]
            fitting = [store for store in stores if told == [answer(store, command) for command in ask]]
            if not fitting:
                wrong += 1
                print(f"run {ran}: the values are those of no first part of the log")
                break
            stood += len(stores) == 2 and fitting[0] is stores[1]
            store = fitting[0]
            for line, command in zip(lines[len(ask):], commands[len(ask):]):
                wrong += line != answer(store, command)
                answered += 1
            stores = [store]
            if len(lines) < len(commands):
                after = dict(store)
                answer(after, commands[len(lines)])
                stores = [store, after]
    print(f"{ran} runs, {killed} killed, {answered} commands answered, {stood} in hand stood, {wrong} wrong")
    return 1 if wrong or killed < wanted or not answered else 0


sys.exit(main())
