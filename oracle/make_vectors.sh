#!/bin/sh
# Makes the small images, journals and expected texts again (data/). Needs e2fsprogs and python3.
# The times in the commit blocks, and so the dump texts, differ from run to run.
set -eu
here=$(cd "$(dirname "$0")" && pwd)
data=${1:-$here/data}
ref="python3 $here/jbref.py"
rm -rf "$data"
mkdir -p "$data"
cd "$data"
exec 2>"$data/messages.txt"

# Blocks to log: by turns one that begins with jbd2's magic and a plain one.
for bs in 1024 4096; do
  python3 - $bs <<'P'
import sys
bs = int(sys.argv[1])
def block(head): return head + bytes(bs - len(head))
magic = bytes.fromhex("c03b3998")
plain = lambda n: block(b"plain data %02d\n\0" % n)
sharp = lambda n: block(magic + bytes([1, 2, 3, n]) + b"data %02d\n" % n)
open(f"two.{bs}", "wb").write(sharp(4) + plain(1))
open(f"other.{bs}", "wb").write(plain(2) + sharp(5))
open(f"third.{bs}", "wb").write(plain(3) + plain(4))
open(f"many.{bs}", "wb").write(b"".join(sharp(n % 100) if n % 3 == 0 else plain(n % 100) for n in range(260)))
P
done

# file system: NAME BS JOURNAL_MB BLOCKS [64bit]
fs() {
  rm -f "$1.img"
  mkfs.ext4 -q -b "$2" -O "^metadata_csum,${5:-^64bit}" -J size="$3" -U 00010203-0405-0607-0809-0a0b0c0d0e0f \
    -E nodiscard,lazy_itable_init=0 "$1.img" "$4" >/dev/null
}
# one session: NAME COMMANDS
session() {
  printf 'jo\n%b\njc\n' "$2" | debugfs -w -f - "$1.img" >/dev/null
  printf '%s: jo; %b; jc\n' "$1" "$2" | tr '\n' ' ' | sed 's/  */ /g' >>commands.txt
  echo >>commands.txt
}
# what is expected of it: NAME
expect() {
  debugfs -R "dump <8> $1.journal" "$1.img"
  debugfs -R "blocks <8>" "$1.img" | tr ' ' '\n' | grep . >"$1.places"
  debugfs -R "logdump -a -f $1.journal" "$1.img" >"$1.logdump"
  $ref dump "$1.journal" >"$1.dump"
  $ref homes "$1.journal" >"$1.homes"
  $ref counts "$1.journal" >"$1.counts"
  cp "$1.img" "$1.replayed.img"
  debugfs -w -R jr "$1.replayed.img"
  printf '%-14s ' "$1"
  $ref logdump "$1.journal" "$1.logdump" || true
}

# One transaction of two copies; the first copy begins with the magic.
fs copies 1024 1 4096
session copies 'jw -b 3001,3002 two.1024'
expect copies
# A later session revokes one of them.
cp copies.img revoked.img
session revoked 'jw -r 3002'
expect revoked
# Four transactions in one session; the last has its revoke block behind its run.
fs session 1024 1 4096
session session 'jw -b 3001,3002 two.1024\njw -r 3001,3002\njw -b 3002,3003 other.1024\njw -b 3004,3005 third.1024 -r 3003,3006'
expect session
# A revoke behind its run, and one transaction more in the same session: debugfs writes over the commit block.
fs lost 1024 1 4096
session lost 'jw -b 3001,3002 two.1024\njw -b 3003 other.1024 -r 3002\njw -b 3004 third.1024'
expect lost
# The last transaction is left without its commit block.
fs open 1024 1 4096
session open 'jw -b 3001,3002 two.1024\njw -c -b 3002,3003 other.1024'
expect open
# Two hundred and sixty copies: three descriptors; then as many revokes: two revoke blocks.
fs full 1024 1 4096
session full "jw -b $(seq -s, 2000 2259) many.1024\njw -r $(seq -s, 2001 2260)"
expect full
# As `session`, in blocks of 4,096 bytes.
fs kib4 4096 4 4096
session kib4 'jw -b 3001,3002 two.4096\njw -r 3002\njw -b 3002,3003 other.4096 -r 3001'
expect kib4
# With 64-bit block numbers: as `session`, and 260 copies (four descriptors) and as many revokes (three revoke blocks).
fs wide 1024 1 4096 64bit
session wide 'jw -b 3001,3002 two.1024\njw -r 3001,3002\njw -b 3002,3003 other.1024\njw -b 3004,3005 third.1024 -r 3003,3006'
expect wide
fs widefull 1024 1 4096 64bit
session widefull "jw -b $(seq -s, 2000 2259) many.1024\njw -r $(seq -s, 2001 2260)"
expect widefull
fs wide4 4096 4 4096 64bit
session wide4 'jw -b 3001,3002 two.4096\njw -r 3002\njw -b 3002,3003 other.4096 -r 3001'
expect wide4
# With few inodes and the journal at block 2000, so that blocks from 41 on are free; in 41 to 46 stands `before NN`: NAME BS MIB [64bit]
near() {
  rm -f "$1.img"
  mkfs.ext4 -q -b "$2" -O "^metadata_csum,${4:-^64bit},^resize_inode" -N 16 -J size="$3",location=2000 \
    -U 00010203-0405-0607-0809-0a0b0c0d0e0f -E nodiscard,lazy_itable_init=0 "$1.img" 4096 >/dev/null
  for b in 41 42 43 44 45 46; do
    printf 'before %s\n' $b | dd of="$1.img" bs="$2" seek=$b conv=notrunc status=none
  done
}
# what a test of jb_recover needs of it: the rows of an image that has these six home blocks alone, before and after debugfs's replay: NAME BS
near_rows() {
  for state in img replayed.img; do
    dd if="$1.$state" of=homes bs="$2" skip=41 count=6 status=none
    $ref rows_at "$2" 41 homes
  done >"$1.homes.txt"
  $ref rows_at "$2" 0 "$1.journal" >"$1.rows.txt"
  cp "$1.img" "$1.fsck.img"
  e2fsck -E journal_only -y "$1.fsck.img" >/dev/null || true
  dd if="$1.fsck.img" of=homes.fsck bs="$2" skip=41 count=6 status=none
  cmp homes homes.fsck
  rm homes homes.fsck "$1.fsck.img"
}
# Four transactions: an escape, revokes in a later transaction, a copy again, and a revoke of its own transaction's copy.
near near 1024 1
session near 'jw -b 41,42 two.1024\njw -r 41,42\njw -b 42,43 other.1024\njw -b 44,45 third.1024 -r 44,46'
expect near
near_rows near 1024
# Copies of one home in two transactions; the last transaction is left without its commit block.
near nearopen 1024 1
session nearopen 'jw -b 41,42 two.1024\njw -b 42,43 other.1024\njw -c -b 43,44 third.1024'
expect nearopen
near_rows nearopen 1024
# In blocks of 4,096 bytes: a revoke, a copy again, and a revoke in the transaction behind.
near near4 4096 4
session near4 'jw -b 41,42 two.4096\njw -r 42\njw -b 42,43 other.4096 -r 41'
expect near4
near_rows near4 4096
# As `near`, with 64-bit block numbers.
near nearwide 1024 1 64bit
session nearwide 'jw -b 41,42 two.1024\njw -r 41,42\njw -b 42,43 other.1024\njw -b 44,45 third.1024 -r 44,46'
expect nearwide
near_rows nearwide 1024
# Only mke2fs: a clean journal.
fs clean 1024 1 4096
expect clean
# After debugfs has recovered it: clean again.
cp session.replayed.img after.img
expect after

# A random log, written by jbref.py into the journal of a file system that debugfs has opened once: NAME SEED [64bit]
random_log() {
  case $2 in [89]) bs=4096 mb=4 ;; *) bs=1024 mb=1 ;; esac
  fs "$1" $bs $mb 4096 "${3:-^64bit}"
  printf 'jo\njw -r 3000\njc\n' | debugfs -w -f - "$1.img" >/dev/null
  debugfs -R "blocks <8>" "$1.img" | tr ' ' '\n' | grep . >"$1.places"
  $ref random "$2" $bs 1024 2000-4096 "$1.journal" ${3:+wide}
  $ref put "$1.journal" "$1.img" "$1.places"
  expect "$1"
  debugfs -R "dump <8> $1.again" "$1.img"
  cmp "$1.again" "$1.journal"
  rm "$1.again"
}
for seed in 1 2 3 4 5 6 12 8 9; do random_log random$seed $seed; done
for seed in 1 3 12 8; do random_log randomwide$seed $seed 64bit; done

# jbref.py's own replay beside debugfs's, before any jb is asked.
for journal in *.journal; do
  name=${journal%.journal}
  printf '%-14s reference ' "$name"
  $ref own "$journal" $name.img $name.replayed.img $(head -1 $name.places)
done

# Test data of the small ones.
for name in copies revoked session lost open kib4 wide wide4; do
  $ref rows $name.journal $(echo $name | tr a-z A-Z) >$name.rows.txt
done
