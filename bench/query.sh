#!/usr/bin/env bash
# Compares def, refs, symbol and symbols on large indexes in the style of two producers with what they have to print, and times them:
# the first question beside a plain reader in C++ and beside reading the same file with wc, and symbols beside refs. Beside Google's
# library library.sh times def and refs.
# Build the program first: .ci/build. Then: bench/query.sh [PATH OF THE PROGRAM]
# PART divides the documents of the large ones.
set -eu
here=$(cd "$(dirname "$0")" && pwd)
oscip=$(realpath "${1:-$here/../crates/oscip/out/oscip}")
work=$(mktemp -d)
trap 'rm -rf "$work"' EXIT
g++ -O2 -o "$work/plain" "$here/query.cpp"
gcc -O1 -o "$work/peak" "$here/peak.c"
cd "$work"

printf '%-11s %10s | %9s %9s %9s | %6s %6s %6s | %10s %6s %6s\n' style bytes oscip_ms c++_ms wc_ms time memory rows symbols_ms time memory
large=$((400 / ${PART:-1}))
for row in "typescript 10 100" "java 10 100" "typescript $large 800" "java $large 700"; do
  set -- $row
  python3 "$here/query.py" "$1" "$2" "$3" index rows symbols
  count=0
  while read -r command path line column answer; do
    [ "$("$oscip" "$command" index "$path" "$line" "$column" | tr '\n' ' ')" = "${answer:+$answer }" ] || { echo "another answer: $command $path $line $column"; exit 1; }
    symbol=$("$oscip" symbol index "$path" "$line" "$column")
    [ "$("$oscip" "$command" --symbol "$symbol" index "$path" | tr '\n' ' ')" = "${answer:+$answer }" ] || { echo "another answer: $command $symbol"; exit 1; }
    count=$((count + 1))
  done < rows
  "$oscip" symbols index | cmp - symbols
  read -r command path line column _ < rows
  cmp <("$oscip" "$command" index "$path" "$line" "$column") <(./plain "$command" index "$path" "$line" "$column")
  bytes=$(wc -c < index)
  times=$(python3 "$here/measure.py" -- "$oscip" "$command" index "$path" "$line" "$column" -- ./plain "$command" index "$path" "$line" "$column" -- wc index)
  read -r ours plain wc <<< "$times"
  memory=$(./peak "$oscip" "$command" index "$path" "$line" "$column" 2>&1 > said)
  read -r refs all <<< "$(python3 "$here/measure.py" -- "$oscip" refs index "$path" "$line" "$column" -- "$oscip" symbols index)"
  held=$(./peak "$oscip" symbols index 2>&1 > said)
  python3 -c "print('%-11s %10d | %9.1f %9.1f %9.1f | %5.1fx %5.1fx %6d | %10.1f %5.1fx %5.1fx' % ('$1', $bytes, $ours, $plain, $wc, $ours / $plain, ${memory#* } * 1024 / $bytes, $count, $all, $all / $refs, ${held#* } * 1024 / $bytes))"
done
echo "time: the program's time over the plain reader's, and that of symbols over that of refs; memory: the greatest resident size over the index's bytes"
