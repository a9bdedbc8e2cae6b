#!/usr/bin/env bash
# Times check-net on generated networks, beside a plain checker in C++ and beside reading the same files with wc.
# Build the program first: .ci/build. Then: bench/run.sh [PATH OF THE PROGRAM]
set -eu
here=$(cd "$(dirname "$0")" && pwd)
oscip=$(realpath "${1:-$here/../crates/oscip/out/oscip}")
work=$(mktemp -d)
trap 'rm -rf "$work"' EXIT
for program in generate plain_cut check; do g++ -O2 -o "$work/$program" "$here/$program.cpp"; done
gcc -O1 -o "$work/peak" "$here/peak.c"
cd "$work"

printf '%-8s %8s %8s %10s | %9s %9s %9s | %6s %6s\n' modules imports report bytes oscip_ms c++_ms wc_ms time memory
for size in "512 4096" "2048 16384" "8192 65536"; do
  set -- $size
  ends=$(./generate banded 1 "$1" "$2" net)
  ./plain_cut net $ends report > right
  # One less in the last flow line.
  tac right | awk '/^flow / && !done { done = 1; if (--$4 == 0) next } 1' | tac > wrong
  [ "$("$oscip" check-net net right)" = "$(./check net right)" ]
  ours=$("$oscip" check-net net wrong) && exit 1; [ $? = 5 ]
  plain=$(./check net wrong) && exit 1; [ $? = 5 ]
  case $ours in "$plain" | "$plain "*) ;; *) exit 1 ;; esac
  bytes=$(cat net right | wc -c)
  times=$(python3 "$here/measure.py" -- "$oscip" check-net net right -- ./check net right -- wc net right)
  read -r ours plain wc <<< "$times"
  memory=$(./peak "$oscip" check-net net right 2>&1 > said)
  python3 -c "print('%-8s %8s %8d %10d | %9.1f %9.1f %9.1f | %5.1fx %5.1fx' % ('$1', '$2', $(wc -l < right), $bytes, $ours, $plain, $wc, $ours / $plain, ${memory#* } * 1024 / $bytes))"
done
echo "time: the program's time over the plain checker's; memory: its greatest resident size over the bytes of both files"
