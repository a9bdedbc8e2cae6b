#!/usr/bin/env bash
# Times def and refs, and what reads and writes an index, beside Google's protobuf library over the same messages (index.proto).
# Where protoc or the library isn't there, nothing is timed. Build the program first: .ci/build.
# WIRE names the program of wire.sh; without it that is built.
# Then: bench/library.sh [PATH OF THE PROGRAM]
set -eu -o pipefail
here=$(cd "$(dirname "$0")" && pwd)
oscip=$(realpath "${1:-$here/../crates/oscip/out/oscip}")
command -v protoc > /dev/null || { echo "protoc isn't there: nothing is timed"; exit 0; }
work=$(mktemp -d)
trap 'rm -rf "$work"' EXIT
cd "$work"
protoc -I "$here" --cpp_out=. index.proto
gcc -O1 -o peak "$here/peak.c"
if ! g++ -O2 -I. -o library "$here/library.cpp" index.pb.cc -lprotobuf -lpthread 2> said; then
  echo "Google's library isn't there: nothing is timed"
  exit 0
fi

wire=${WIRE:-$work/wire}
[ -n "${WIRE:-}" ] || "$here/wire.sh" build "$wire"

printf '%-11s %10s | %8s %9s %9s | %6s %6s\n' style bytes command oscip_ms lib_ms time memory
for row in "typescript 400 800" "java 400 700"; do
  set -- $row
  python3 "$here/query.py" "$1" "$2" "$3" index rows
  bytes=$(wc -c < index)
  ./library index 7 > theirs
  "$wire" index 7 > own
  for which in def refs; do
    read -r _ path line column _ < <(grep "^$which " rows)
    words=("$which" index "$path" "$line" "$column")
    cmp <("$oscip" "${words[@]}") <(./library "${words[@]}")
    read -r ours theirs <<< "$(python3 "$here/measure.py" -- "$oscip" "${words[@]}" -- ./library "${words[@]}")"
    memory=$(./peak "$oscip" "${words[@]}" 2>&1 > said)
    python3 -c "print('%-11s %10d | %8s %9.1f %9.1f | %5.2fx %5.1fx' % ('$1', $bytes, '$which', $ours, $theirs, $ours / $theirs, ${memory#* } * 1024 / $bytes))"
  done
  python3 - "$1" <<'END'
import sys

own = [[int(it) for it in line.split()] for line in open("own")]
reading, writing = (min(row[k] for row in own) / 1e6 for k in (0, 1))
theirs = [int(it) / 1e6 for it in open("theirs").read().split()]
for name, ours, library in (("from_bytes", reading, theirs[0]), ("to_bytes", writing, theirs[1])):
    print("%-11s %10s | %8s %9.1f %9.1f | %5.2fx" % (sys.argv[1], "", name, ours, library, ours / library))
END
done
echo "time: the program's time over that of a process of the library; memory: its greatest resident size over the index's bytes;"
echo "from_bytes, to_bytes: the whole index read and written beside the library's reading and writing, without a process"
