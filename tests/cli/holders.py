"""Who has a file that a row has locked: this process, which runs the program."""
import os

with open("/proc/self/comm") as file:
    HELD = "locked by process %d (%s)" % (os.getpid(), file.read().rstrip("\n"))
