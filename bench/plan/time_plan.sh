#!/usr/bin/env bash
# Times `jb plan` and `jb check` beside the same planner in Rust: time_plan.sh JB [FOLDER]
set -eu
jb=$1
here=$(dirname "$0")
work=${2:-$(mktemp -d)}
mkdir -p "$work"
rustc -O -o "$work/plan" "$here/plan.rs"
uptime
# user seconds and the most memory in MiB of a command, whose output goes to a file
taken() {
    local out=$1
    shift
    python3 - "$out" "$@" <<'PY'
import resource
import subprocess
import sys

with open(sys.argv[1], "wb") as out:
    subprocess.run(sys.argv[2:], stdout=out)
use = resource.getrusage(resource.RUSAGE_CHILDREN)
print(f"{use.ru_utime:.2f} s {use.ru_maxrss // 1024} MiB")
PY
}
one() {
    local name=$1
    shift
    python3 "$here/queues.py" "$@" > "$work/queue"
    local rust jb_plan jb_check
    rust=$(taken "$work/rust" "$work/plan" "$work/queue")
    jb_plan=$(taken "$work/cert" "$jb" plan "$work/queue")
    cmp "$work/rust" "$work/cert"
    jb_check=$(taken "$work/said" "$jb" check "$work/queue" "$work/cert")
    echo "$name: $(stat -c %s "$work/queue") bytes, rust $rust, plan $jb_plan, check $jb_check, $(cat "$work/said")"
}
for load in seven sixty wide freed inodes new fresh halves eighth fresh_eighth sparse second twos shifted; do
    one "$load" "$load"
done
for mib in 2 4 8 15; do
    one "pairs $mib MiB" pairs $((mib * 131072))
done
