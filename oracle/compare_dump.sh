#!/bin/sh
# compare_dump.sh JB [DATA]: `JB dump` of each journal beside the text that jbref.py expects.
set -u
here=$(cd "$(dirname "$0")" && pwd)
jb=$(command -v "$1") || { echo "usage: compare_dump.sh JB [DATA]" >&2; exit 2; }
jb=$(realpath "$jb")
cd "${2:-$here/data}" || exit 2
bad=0
for journal in *.journal; do
  name=${journal%.journal}
  out=$(mktemp)
  if "$jb" dump "$journal" >"$out" && cmp -s "$out" "$name.dump"; then
    printf '%-10s same, %s lines\n' "$name" "$(wc -l <"$out")"
  else
    printf '%-10s DIFFERENT\n' "$name"
    diff "$out" "$name.dump" | head -5
    bad=1
  fi
  rm -f "$out"
done
exit $bad
