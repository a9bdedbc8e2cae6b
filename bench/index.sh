#!/usr/bin/env bash
# Compares index and unresolved with a plain indexer on small random trees and on the editor, decodes the editor's index, checks the
# indexes of six trees by the rules of the format's linter (lint.py), and times
# index on large trees beside an indexer in C++ that looks at no field, beside ctags, where that is there, which takes the files for
# Pascal, and beside cat and wc.
# Build the program first: .ci/build.
# Then: bench/index.sh [PATH OF THE PROGRAM [SEED [CASES]]]
# PART is what part of the large trees is made (modules.py).
set -eu
here=$(cd "$(dirname "$0")" && pwd)
oscip=$(realpath "${1:-$here/../crates/oscip/out/oscip}")
work=$(mktemp -d)
trap 'rm -rf "$work"' EXIT
cp -r "$here/../examples/editor" "$work/editor"
python3 "$here/index.py" "$oscip" "${2:-1}" "${3:-500}" "$work/editor"
"$oscip" index "$work/editor" "$work/editor.out"
if command -v protoc >/dev/null; then
  protoc --proto_path="$here" --decode=wire.Index "$here/index.proto" <"$work/editor.out" >"$work/editor.txt"
  documents=$(grep -c '^documents' "$work/editor.txt")
  echo "protoc reads the editor's index: $documents documents, $(grep -c 'occurrences {' "$work/editor.txt") occurrences"
  if grep -E '^ *[0-9]+(:| \{)' "$work/editor.txt"; then
    echo "these fields of the editor's index are unknown"
    exit 1
  fi
  modules=$(find "$work/editor" -name '*.[Mm]od' | wc -l)
  [ "$documents" = "$modules" ] || { echo "the editor has $modules modules"; exit 1; }
else
  echo "without protoc the editor's index isn't decoded"
fi

# linted FOLDER [WORD ..]: checks the index of a folder by the rules of the format's linter.
linted() {
  "$oscip" index "${@:2}" "$1" "$work/linted.scip"
  python3 "$here/lint.py" "$work/linted.scip" "$1"
}
linted "$work/editor"
for seed in 1 2; do
  python3 "$here/index_trees.py" "$seed" "$work/random$seed"
  linted "$work/random$seed" --package "a package"
done
for shape in files graph large; do
  mkdir "$work/part-$shape"
  PART=16 python3 "$here/modules.py" "$shape" "$work/part-$shape"
  linted "$work/part-$shape"
done
g++ -O2 -std=c++17 -pthread -o "$work/indexer" "$here/indexer.cpp"
gcc -O1 -o "$work/peak" "$here/peak.c"

# timed NAME WORD ..: runs a command on the tree of this shape, and writes down what it took.
timed() {
  local name=$1 told
  shift
  told=$("$work/peak" "$@" 2>&1 >"$work/said")
  echo "$shape $name ${told##*$'\n'} $bytes" >>"$work/times"
}

for shape in files graph large; do
  mkdir "$work/$shape"
  python3 "$here/modules.py" "$shape" "$work/$shape"
  bytes=$(cat "$work/$shape"/* | wc -c)
  for run in 1 2 3; do
    for workers in 1 4; do
      timed oscip-$workers "$oscip" index --workers $workers "$work/$shape" "$work/out"
      timed c++-$workers "$work/indexer" "$work/$shape" "$work/other" $workers
    done
    timed wc sh -c 'cat "$1"/* | wc' sh "$work/$shape"
    if command -v ctags >/dev/null; then
      timed ctags ctags -f - --language-force=Pascal -R "$work/$shape"
    fi
  done
done
sort "$work/times" | awk '
  { key = $1 " " $2; if (!(key in least) || $3 < least[key]) { least[key] = $3; memory[key] = $4 * 1024 / $5 } shapes[$1] }
  function over(key, other) { return other in least && least[other] > 0 ? sprintf("%.1f", least[key] / least[other]) : "-" }
  END { for (s in shapes) printf "%s: one worker over C++ %s, ctags %s, reading %s, four workers over one %.2f, over four threads of C++ %s, %.0f bytes of memory a byte of source (C++ %.0f), %.2f s\n", s,
    over(s " oscip-1", s " c++-1"), over(s " oscip-1", s " ctags"), over(s " oscip-1", s " wc"), least[s " oscip-4"] / least[s " oscip-1"], over(s " oscip-4", s " c++-4"),
    memory[s " oscip-1"], memory[s " c++-1"], least[s " oscip-1"] }'
