#!/bin/sh
# compare_recover.sh JB [DATA]: for each file system of DATA (oracle/data, as make_vectors.sh makes it) its journal is
# dumped by debugfs and put in front of it, `JB recover` runs over that image, and the file system behind is compared,
# block by block, with what `debugfs -w -R jr` leaves in a copy, and with what `e2fsck -E journal_only -y` leaves in
# another. The blocks that differ are told, each with its reason. There are two:
#   - the block of the ext4 superblock (bytes 1024 to 2047 of the file system): debugfs and e2fsck take away the flag
#     needs_recovery and write times and counters; the rest of the block must be the same;
#   - the first block of the journal's inode: debugfs and e2fsck clean the superblock of the journal that lies inside the
#     file system, jb the one in front.
# jb must have left these two as they were, but where a copy is for them, and the journal in front must be the old one
# with s_start 0 and s_sequence the first number not found. A second `JB recover` must change nothing.
# At last a journal that `JB format` made is put into a file system, debugfs logs into it, and it is recovered likewise.
set -u
here=$(cd "$(dirname "$0")" && pwd)
jb=$(command -v "$1") || { echo "usage: compare_recover.sh JB [DATA]" >&2; exit 2; }
jb=$(realpath "$jb")
cd "${2:-$here/data}" || exit 2
data=$(pwd)
ref="python3 $here/jbref.py"
bad=0
work=$(mktemp -d)
trap 'rm -rf "$work"' EXIT

# one file system: NAME FILE
recovered() {
  name=$1
  cp "$2" "$work/fs"
  cd "$work" || exit 2
  debugfs -R "dump <8> journal" fs 2>/dev/null
  place=$(debugfs -R "blocks <8>" fs 2>/dev/null | tr ' ' '\n' | grep -m 1 .)
  cat journal fs >image
  $ref counts journal >counts
  line=$("$jb" recover image)
  status=$?
  if [ $status != 0 ] || [ "$line" != "$(cat counts)" ]; then
    printf '%-10s DIFFERENT line, status %s: "%s", not "%s"\n' "$name" $status "$line" "$(cat counts)"
    bad=1
  fi
  cp fs debugfs.img
  debugfs -w -R jr debugfs.img >/dev/null 2>&1
  cp fs e2fsck.img
  e2fsck -E journal_only -y e2fsck.img >/dev/null 2>&1
  for other in debugfs e2fsck; do
    printf '%-10s %-8s ' "$name" $other
    $ref compare image journal fs $other.img "$place" || bad=1
  done
  cp image once
  again=$("$jb" recover image)
  if [ "$again" != "transactions 0 copies 0 revoked 0 next ${line##* }" ]; then
    echo "  a second recover says: $again"
    bad=1
  fi
  cmp -s image once || { echo "  a second recover changed the image"; bad=1; }
  cd "$data" || exit 2
}

for fs in *.img; do
  case $fs in *.replayed.img) continue ;; esac
  recovered "${fs%.img}" "$fs"
done

# A journal that jb made, in a file system of mke2fs. Its first blocks are the journal; the homes are not used.
for old in near near4 nearwide; do
  case $old in near4) bs=4096 ;; *) bs=1024 ;; esac
  case $old in nearwide) width=--wide ;; *) width= ;; esac
  rm -f "$work/made"
  line=$("$jb" format "$work/made" --bs $bs --journal 1024 --homes 8 $width --uuid 000102030405060708090a0b0c0d0e0f)
  [ "$line" = "formatted limit 255" ] || { echo "jb format says: $line"; bad=1; }
  line=$("$jb" recover "$work/made")
  [ "$line" = "transactions 0 copies 0 revoked 0 next 2" ] || { echo "jb recover of a new journal says: $line"; bad=1; }
  head -c $((1024 * bs)) "$work/made" >"$work/made.journal"
  cp $old.img "$work/made.img"
  $ref put "$work/made.journal" "$work/made.img" $old.places
  printf 'jo\njw -b 41,42 two.%s\njw -r 41\njw -b 43 third.%s\njc\n' $bs $bs | debugfs -w -f - "$work/made.img" >/dev/null 2>&1
  recovered made-$old "$work/made.img"
done
exit $bad
