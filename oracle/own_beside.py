"""What e2fsck makes of a changed file system that JB recovers, for own_changes.py."""
import os
import re
import subprocess

from own_image import JOURNAL_ONLY

AS_MEANT = "as the log means"
SECONDS = 5  # of e2fsck, the longest: where it deletes the journal it goes on to check all of a hostile file system
# why e2fsck does not replay the log that JB replays, by what it says; the first that is found
SAID = [("takes a backup superblock", "trying backup"),
        ("deletes the journal", "journal has been deleted|Clear journal"),
        ("refuses the journal's superblock", "ournal superblock"),
        ("refuses the file system", "superblock could not be read|is corrupt|unsupported feature")]


def homes_of(recovery):
    """The homes that the log writes, but for the file system's superblock, of which e2fsck writes more."""
    size, front = recovery.fs.size, recovery.fs.front()
    return [(at, new) for at, new in recovery.writes if len(new) == size and at // size != front]


def beside(data, recovery, file):
    """How e2fsck leaves the homes of these bytes, in this file: as the log means, or why not."""
    homes = homes_of(recovery)
    if not homes:
        return "no home to write"
    file.map[:] = data
    env = dict(os.environ, LC_ALL="C", E2FSCK_TIME="1800000000")
    try:
        done = subprocess.run(JOURNAL_ONLY + ["e2fsck.img"], capture_output=True, text=True, check=False, env=env,
                              errors="replace", timeout=SECONDS)
    except subprocess.TimeoutExpired:
        return "no end after %d seconds" % SECONDS
    theirs = file.map
    other = [(at, new) for at, new in homes if theirs[at:at + len(new)] != new]
    if not other:
        return AS_MEANT
    said = next((why for why, form in SAID if re.search(form, done.stdout + done.stderr)), "says nothing of it")
    kept = all(theirs[at:at + len(new)] == data[at:at + len(new)] for at, new in other)
    return "%s, %s" % (said, "%s as they were" % ("all" if len(other) == len(homes) else "some") if kept else "some others")
