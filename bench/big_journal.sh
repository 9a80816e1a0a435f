#!/bin/sh
# big_journal.sh DIR [JB [MIB [BS [REVOKED]]]]: in DIR a file system of 256 MiB (blocks of BS bytes, 4,096) whose journal of MIB
# MiB (64) is full of committed transactions (a hundred copies each, a revoke of up to REVOKED homes of the one before, 2, some
# escapes):
#   big.img      the file system, whose journal is to be recovered
#   big.journal  its journal as a file
#   big.image    big.journal followed by big.img, which is what `jb recover` takes
# With JB: seconds and peak memory of `jb dump` beside debugfs's logdump, and of `jb recover` beside
# `e2fsck -E journal_only -fy` and `debugfs -w -R jr`, each the best of three, on copies; then the homes are compared.
set -eu
here=$(cd "$(dirname "$0")" && pwd)
dir=${1:?usage: big_journal.sh DIR [JB]}
jb=${2:-}
mib=${3:-64} bs=${4:-4096} revoked=${5:-2}
if [ -n "$jb" ]; then jb=$(realpath "$(command -v "$jb")"); fi
ref="python3 $here/../oracle/jbref.py"
mkdir -p "$dir"
cd "$dir"
if [ ! -f big.image ]; then
  rm -f big.img
  mkfs.ext4 -q -b $bs -O ^metadata_csum,^64bit -J size=$mib -U 00010203-0405-0607-0809-0a0b0c0d0e0f \
    -E nodiscard,lazy_itable_init=0 big.img $((268435456 / bs)) >/dev/null
  printf 'jo\njw -r 30000\njc\n' | debugfs -w -f - big.img >/dev/null 2>&1
  debugfs -R "blocks <8>" big.img 2>/dev/null | tr ' ' '\n' | grep . >big.places
  dumpe2fs big.img 2>/dev/null | grep '^  Free blocks: ' | sed 's/.*: //' | tr -d ' ' | tr ',' '\n' | grep . |
    while IFS=- read -r low high; do seq "$low" "${high:-$low}"; done >big.free
  $ref big $bs $((mib * 1048576 / bs)) big.free big.journal $revoked
  $ref put big.journal big.img big.places
  $ref image big.journal big.img big.image
  $ref dump big.journal >big.dump
  $ref counts big.journal >big.counts
fi
ls -l big.img big.journal big.image | awk '{print $5, $9}'
cat big.counts
[ -n "$jb" ] || exit 0

# best NAME COPY OF COMMAND..: the best of three; before each, untimed, OF is copied to COPY and synced (none: -)
best() {
  python3 - "$@" <<'P'
import os, shutil, subprocess, sys, time
name, copy, of, *command = sys.argv[1:]
runs = []
for _ in range(3):
    if copy != "-":
        shutil.copyfile(of, copy)
        with open(copy, "rb") as f:
            os.fsync(f.fileno())
    with open("out.txt", "wb") as out, open("err.txt", "wb") as err:
        start = time.perf_counter()
        status = subprocess.call(["/usr/bin/time", "-q", "-f", "%M", "-o", "peak.txt", *command], stdout=out, stderr=err)
        runs.append((time.perf_counter() - start, int(open("peak.txt").read()) / 1024, status))
seconds, _, status = min(runs)
print(f"{name:<34} {seconds:7.3f} s, peak {max(r[1] for r in runs):7.1f} MiB, status {status}, {os.path.getsize('out.txt')} bytes printed", flush=True)
P
}
best 'cat (reading alone)' - - cat big.journal
best 'jb dump' - - "$jb" dump big.journal
cmp out.txt big.dump && echo '  its text is the expected one'
best 'debugfs logdump -a -f' - - debugfs -R "logdump -a -f big.journal"
best 'debugfs logdump -ac -f' - - debugfs -R "logdump -ac -f big.journal"
best 'jb recover' work.image big.image "$jb" recover work.image
cmp out.txt big.counts && echo '  its line is the expected one'
best 'e2fsck -E journal_only -fy' fsck.img big.img e2fsck -E journal_only -fy fsck.img
best 'e2fsck -E journal_only -y' fsck2.img big.img e2fsck -E journal_only -y fsck2.img
best 'debugfs -w -R jr' work.img big.img debugfs -w -R jr work.img
echo 'beside debugfs:'
$ref compare work.image big.journal big.img work.img "$(head -1 big.places)" || true
echo 'beside e2fsck -E journal_only -y:'
$ref compare work.image big.journal big.img fsck2.img "$(head -1 big.places)" || true
rm -f work.image work.img fsck.img fsck2.img out.txt err.txt peak.txt
