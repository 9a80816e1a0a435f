#!/usr/bin/env python3
"""Kills example_accounts at random moments, and compares what the accounts hold after the next run has recovered the journal.

    tests/processes/kill_accounts.py PROGRAM [KILLS]

The image stays from run to run. A run that ends before it is killed is counted, and must print the right line. After all kills
(200, if no number is given) one more run moves nothing and must print it; the homes of the image, read here, must hold as much
then, and money must have been moved. Prints how many runs there were, and ends with 1 where one was wrong.
"""
import os
import random
import signal
import subprocess
import sys
import tempfile

LINE = b"the accounts hold 100000\n"

# the blocks of the journal, before the accounts; how many accounts there are; and the bytes of a block
JOURNAL, ACCOUNTS, SIZE = 1024, 100, 1024


def run(program, image, moves, patience):
    """What one run printed, or None where it was killed after this many seconds."""
    started = subprocess.Popen([program, image, str(moves)], stdin=subprocess.DEVNULL, stdout=subprocess.PIPE,
                               stderr=subprocess.STDOUT)
    try:
        return started.communicate(timeout=patience)[0]
    except subprocess.TimeoutExpired:
        started.send_signal(signal.SIGKILL)
        started.communicate()
        return None


def balances(image):
    """What each account holds, by its home block in the image."""
    with open(image, "rb") as file:
        file.seek(JOURNAL * SIZE)
        homes = file.read(ACCOUNTS * SIZE)
    return [int.from_bytes(homes[at:at + 8], "big") for at in range(0, len(homes), SIZE)]


def main():
    program = os.path.abspath(sys.argv[1])
    wanted = int(sys.argv[2]) if len(sys.argv) > 2 else 200
    chance = random.Random(1)
    killed = ran = wrong = 0
    with tempfile.TemporaryDirectory() as folder:
        image = os.path.join(folder, "accounts.img")
        # a journal that was not made whole has nothing to recover
        wrong += run(program, image, 0, 60) != LINE
        while killed < wanted and ran < 20 * wanted:
            ran += 1
            printed = run(program, image, 2000, chance.uniform(0.001, 0.06))
            if printed is None:
                killed += 1
            elif printed != LINE:
                wrong += 1
                sys.stdout.write(f"run {ran}: {printed!r}\n")
        last = run(program, image, 0, 60)
        if last != LINE:
            wrong += 1
            sys.stdout.write(f"the last run: {last!r}\n")
        held = balances(image)
        if sum(held) != 100000 or held == [1000] * ACCOUNTS:
            wrong += 1
            sys.stdout.write(f"the homes: {held}\n")
    print(f"{ran} runs, {killed} killed, {wrong} wrong")
    return 1 if wrong or killed < wanted else 0


sys.exit(main())
