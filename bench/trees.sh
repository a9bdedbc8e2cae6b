#!/usr/bin/env bash
# Times cut on generated trees of modules, beside reading the same files with cat and wc, and, where that is there, beside ctags over as
# many bytes of C. The report has to have weights that sum up to its own, and check has to say yes to it.
# Build the program first: .ci/build. Then: bench/trees.sh [PATH OF THE PROGRAM [SHAPE..]]
# KEEP names a folder for the trees and for the two modules of each cut, which parse.sh can use too. PART is
# what part of the trees is made (modules.py).
set -eu
here=$(cd "$(dirname "$0")" && pwd)
oscip=$(realpath "${1:-$here/../crates/oscip/out/oscip}")
shift || true
[ $# -gt 0 ] || set -- files graph
work=$(mktemp -d)
trap 'rm -rf "$work"' EXIT
gcc -O1 -o "$work/peak" "$here/peak.c"
data=$(realpath -m "${KEEP:-$work/data}")
mkdir -p "$data"
cd "$work"

stop() {
  echo "$shape, $ends: $1"
  exit 1
}

# The two modules of a tree's cut: the one that reaches the most modules, and of those that it reaches the one that the
# most modules reach; of several the least name. Then the numbers of modules and of imports, and of what they reach.
find_ends() {
  python3 - "$1" <<'PY'
import graphlib, os, re, sys

imports = {}
for file in sorted(os.listdir(sys.argv[1])):
    with open(os.path.join(sys.argv[1], file)) as text:
        head = text.read(4096)
    items = re.search(r"^  IMPORT ([^;]*);", head, re.MULTILINE)
    imports[re.match(r"MODULE (\w+);", head)[1]] = [item.split()[-1] for item in items[1].split(",")] if items else []
bit = {name: 1 << k for k, name in enumerate(sorted(imports))}
below, above = dict.fromkeys(imports, 0), dict.fromkeys(imports, 0)
order = list(graphlib.TopologicalSorter(imports).static_order())
for name in order:
    for other in imports[name]:
        below[name] |= bit[other] | below[other]
for name in reversed(order):
    for other in imports[name]:
        above[other] |= bit[name] | above[name]


def most(names, sets):
    return min(names, key=lambda name: (-bin(sets[name]).count("1"), name))


first = most(imports, below)
last = most([name for name in imports if bit[name] & below[first]], above)
print(first, last, len(imports), sum(map(len, imports.values())), bin(below[first]).count("1"), bin(above[last]).count("1"))
PY
}

# Whether the weights of the remove lines sum up to the report's, and there is one.
is_sum() {
  awk '$1 == "weight" { weight = $2 } $1 == "remove" { sum += $4; lines++ } END { exit !(lines && sum == weight) }' report
}

# A row of the table, and its line for the README in the file lines. Words: the times of cut, cut by one worker, check, reading and ctags.
row() {
  python3 - "$shape" "$modules" "$imports" "$size" "$(grep -c '^remove ' report)" "${memory#* }" "$@" <<'PY'
import sys
shape, modules, imports, size, removed, memory = sys.argv[1], *map(int, sys.argv[2:7])
cut, alone, check, reading, *peer = map(float, sys.argv[7:])
beside = "%.1f" % peer[0] if peer else "-", "%.1f" % (cut / peer[0]) if peer else "-"
ratios = ["%.1f" % (cut / reading), beside[1]] + ["%.1f" % ratio for ratio in (alone / cut, check / cut, memory * 1024 / size)]
print("%-6s %7d %7d %9d %7d | %8.1f %8.1f %8.1f %8.1f %8s | %7s %5s %5s %5s | %6s" % (
    shape, modules, imports, size, removed, cut, alone, check, reading, beside[0], *ratios), flush=True)
cells = [shape] + [format(number, ",") for number in (modules, imports, size)] + ratios
with open("lines", "a") as file:
    print("|", " | ".join(cells), "|", file=file)
PY
}

ctags=$(command -v ctags || true)
for shape in ${ctags:+c} "$@"; do
  [ -d "$data/$shape" ] || python3 "$here/modules.py" "$shape" "$data/$shape"
done
for shape in "$@"; do
  [ -e "$data/$shape.ends" ] || find_ends "$data/$shape" > "$data/$shape.ends"
  read -r from to modules imports below above < "$data/$shape.ends"
  echo "$shape: cut from $from, which reaches $below modules, to $to, which $above reach"
done
printf '%-6s %7s %7s %9s %7s | %8s %8s %8s %8s %8s | %7s %5s %5s %5s | %6s\n' shape modules imports bytes removed \
  cut_ms one_ms check_ms read_ms ctags_ms reading ctags one check memory
: > lines
for shape in "$@"; do
  tree=$data/$shape
  read -r from to modules imports below above < "$tree.ends"
  ends="cut from $from to $to"
  "$oscip" cut "$tree" "$from" "$to" > report || stop "cut ends with status $?"
  [ "$(head -n 1 report)" = "cut $from $to" ] || stop "the report begins with $(head -n 1 report)"
  is_sum || stop "the weights of what is to be removed don't sum up to the report's"
  verdict=$("$oscip" check "$tree" report) || stop "check says $verdict"
  [ "$verdict" = yes ] || stop "check says $verdict"
  size=$(cat "$tree"/*.Mod | wc -c)
  peer=()
  if [ -n "$ctags" ]; then
    cat "$data/c/large.c" "$data/c/large.c" | head -c "$size" > same.c
    [ "$(wc -c < same.c)" = "$size" ] || stop "no C of $size bytes"
    peer=(-- ctags -f - same.c)
  fi
  times=$(python3 "$here/measure.py" -- "$oscip" cut "$tree" "$from" "$to" -- "$oscip" cut --workers 1 "$tree" "$from" "$to" \
    -- "$oscip" check "$tree" report \
    -- sh -c 'cat "$0"/*.Mod | wc' "$tree" "${peer[@]}")
  memory=$(./peak "$oscip" cut "$tree" "$from" "$to" 2>&1 > said)
  row $times
done
echo "reading, ctags: the time of cut over theirs; one: that of cut by one worker over it; check: its time over that of cut; memory: the greatest resident size over the bytes of the tree"
cat lines
