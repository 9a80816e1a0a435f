#!/usr/bin/env bash
# What the README's second proved command takes from a fresh clone: clones the commit that is checked out here, runs the command
# there, and prints when each crate was proved, in seconds by the clock since it began, and what the program printed.
#
#     tools/first_run.sh          on a machine with nothing else to do
set -euo pipefail
top=$(cd "$(dirname "$0")/.." && pwd)
room=$(mktemp -d)
trap 'rm -rf "$room"' EXIT
git clone -q "$top" "$room/clone"
cd "$room/clone/crates/jb_tool"
git -C "$top" log -1 --format='commit %h'
echo "$(nproc) processors, load $(cut -d' ' -f1 /proc/loadavg)"
SECONDS=0
rt all check --jobs 6 2>&1 | while IFS= read -r line; do
    printf '%s\n' "$line" >> "$room/log"
    case "$line" in "== "*) echo "$SECONDS ${line#== }" ;; esac
done || { tail -n 20 "$room/log"; exit 1; }
echo "$SECONDS all that the program stands on"
cd ../jb
rt run < stdin 2>> "$room/log" || { tail -n 20 "$room/log"; exit 1; }
echo "$SECONDS seconds"
