#!/usr/bin/env bash
# Times what writes and reads an index of 3 million occurrences, beside a copy of the same bytes.
# It builds the program of wire/: bench/wire.sh [DOCUMENTS OCCURRENCES]
# OCCURRENCES are those of each document. WIRE names a program that is built; bench/wire.sh build PATH builds it there and does no more.
set -eu
here=$(cd "$(dirname "$0")" && pwd)
documents=${1:-300}
occurrences=${2:-10000}
work=$(mktemp -d)
trap 'rm -rf "$work"' EXIT

wire=${WIRE:-$work/crates/wire/out/wire}
[ -n "${WIRE:-}" ] || "$here/own.py" "$work" wire
[ "$documents" != build ] || { cp "$wire" "$occurrences"; exit 0; }
"$wire" "$documents" "$occurrences" 7 > "$work/told"
python3 - "$work/told" <<'END'
import sys

rows = [line.split() for line in open(sys.argv[1])]
for row in rows:
    if row[:1] == ["refused"] or row[0] != row[1] or row[2:5] != ["true"] * 3:
        sys.exit("an index was refused, or its parts are not as long as the whole: " + " ".join(row))
size = int(rows[0][0])
least = [min(int(row[k]) for row in rows) for k in range(5, 10)]
print("%d bytes; least of %d rounds" % (size, len(rows)))
print("%-14s %6s %6s" % ("", "MB/s", "copies"))
for name, nanoseconds in zip(("to_bytes", "IndexWriter", "a copy", "from_bytes", "IndexReader"), least):
    print("%-14s %6.0f %6.1f" % (name, size * 1000 / nanoseconds, nanoseconds / least[2]))
END
