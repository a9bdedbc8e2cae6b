#!/usr/bin/env bash
# Encodes indexes in the style of two producers with `protoc --encode` (foreign.proto), and compares what def and refs print of them
# with what they have to print; and the example of another producer's index, with its text form. Where protoc isn't there, nothing is
# compared. Build the program first: .ci/build. Then: bench/encode.sh [PATH OF THE PROGRAM]
set -eu -o pipefail
here=$(cd "$(dirname "$0")" && pwd)
oscip=$(realpath "${1:-$here/../crates/oscip/out/oscip}")
command -v protoc > /dev/null || { echo "protoc isn't there: nothing is compared"; exit 0; }
work=$(mktemp -d)
trap 'rm -rf "$work"' EXIT
cd "$work"

encoded() { protoc -I "$here" --encode=wire.Index foreign.proto; }
decoded() { protoc -I "$here" --decode=wire.Index foreign.proto; }

# the example: its text form is what its bytes say, and the same index by another encoder is answered alike
encoded < "$here/../examples/foreign.txt" > example.scip
cmp <(decoded < example.scip) <(decoded < "$here/../examples/foreign.scip")
count=0
for path in src/buffer.ts src/view.ts; do
  for line in 0 1 2 3 4 5 6 7 8; do
    for column in 0 4 9 14 17 19 25 29 41; do
      for which in def refs; do
        cmp <("$oscip" "$which" example.scip "$path" "$line" "$column") <("$oscip" "$which" "$here/../examples/foreign.scip" "$path" "$line" "$column")
        count=$((count + 1))
      done
    done
  done
done
echo "the example: its text form and its bytes say the same, and $count questions have one answer"

# unpacked ranges are another way to write the same: foreign.proto with [packed = false]
mkdir unpacked
sed 's/\(repeated int32 [a-z_]* = [0-9]*\);/\1 [packed = false];/' "$here/foreign.proto" > unpacked/foreign.proto

for row in "typescript 12 100" "java 12 100"; do
  set -- $row
  python3 "$here/query.py" "$1" "$2" "$3" made rows
  # what no version of the format has is kept by its number
  decoded < made | sed '/^99: /d' > text
  protoc -I unpacked --encode=wire.Index unpacked/foreign.proto < text > unpacked.scip
  encoded < text > packed.scip
  count=0
  while read -r command path line column answer; do
    for index in packed.scip unpacked.scip; do
      [ "$("$oscip" "$command" "$index" "$path" "$line" "$column" | tr '\n' ' ')" = "${answer:+$answer }" ] || { echo "another answer: $command $path $line $column"; exit 1; }
      count=$((count + 1))
    done
  done < rows
  echo "$1: $(wc -c < packed.scip) bytes, and $(wc -c < unpacked.scip) with unpacked ranges: $count questions have the right answer"
done
