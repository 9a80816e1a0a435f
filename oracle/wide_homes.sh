#!/bin/sh
# wide_homes.sh JB [DIR]: home blocks past 2^32. In DIR (default: a new folder) `JB format --wide --sparse` makes an image with
# 2^32 + 16 home blocks of 1,024 bytes, 4 TiB that take no room, jbref.py writes a log into it, and `JB dump` and `JB recover`
# are compared with jbref.py's. Then the same copy in an image of 16 home blocks, which is to be refused and left as it was.
# Wants a file system that takes files of 4 TiB.
set -eu
here=$(cd "$(dirname "$0")" && pwd)
jb=$(realpath "$(command -v "$1")")
dir=${2:-$(mktemp -d)}
ref="python3 $here/jbref.py"
bad=0
is() {
  if [ "$2" = "$3" ]; then echo "same: $1: $2"; else
    echo "DIFFERENT: $1: '$2', not '$3'"
    bad=1
  fi
}
cd "$dir"
rm -f wide.img small.img
is format "$("$jb" format wide.img --bs 1024 --journal 33 --homes 4294967312 --wide --sparse)" 'formatted limit 8'
# home: its first byte
home() { dd if=wide.img bs=1024 skip=$((33 + $1)) count=1 status=none | head -c 1 | od -An -tx1 | tr -d ' '; }
$ref lay wide.img 'w4294967301=65 w4294967302=66' 'w6=06 r4294967302 w4294967311=6f'
head -c $((33 * 1024)) wide.img >journal
is dump "$("$jb" dump journal | md5sum)" "$($ref dump journal | md5sum)"
is recover "$("$jb" recover wide.img)" "$($ref counts journal)"
for pair in 5=00 6=06 4294967301=65 4294967302=00 4294967311=6f; do
  is "home ${pair%=*}" "$(home ${pair%=*})" "${pair#*=}"
done
is 'format of 16 homes' "$("$jb" format small.img --bs 1024 --journal 33 --homes 16 --wide)" 'formatted limit 8'
$ref lay small.img 'w4294967301=65'
cp small.img before.img
is 'recover of 16 homes' "$("$jb" recover small.img 2>&1 || true)" 'jb: HomeOutOfRange 4294967301 2'
cmp small.img before.img || bad=1
rm -f wide.img small.img before.img journal
exit $bad
