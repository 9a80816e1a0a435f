#!/usr/bin/env bash
# long_certificate.sh [JB]: a queue of 1,200,000 handles, of which no two fit one group, is planned, and its certificate, which is
# longer than a queue text may be, is checked. Prints the bytes of both, and what `jb check` says.
set -eu
here=$(cd "$(dirname "$0")" && pwd)
jb=${1:-$here/../../crates/jb/out/jb}
folder=$(mktemp -d)
trap 'rm -rf "$folder"' EXIT
awk 'BEGIN { print "bs 1024"; print "limit 3"; for (k = 0; k < 1200000; k++) print "h w" k % 10 }' > "$folder/queue"
"$jb" plan "$folder/queue" > "$folder/cert"
wc -c < "$folder/queue"
wc -c < "$folder/cert"
"$jb" check "$folder/queue" "$folder/cert"
