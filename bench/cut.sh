#!/usr/bin/env bash
# Times cut-net on generated networks of several shapes, beside a plain solver in C++ and the maximum flows of LEMON and of
# Boost, where g++ finds their headers. Each report has to have the weight and the imports of the plain solver, and
# check-net has to say yes to it.
# Build the program first: .ci/build. Then: bench/cut.sh [PATH OF THE PROGRAM [SHAPE..]]
# WORKERS is the number of workers, SIZES names the numbers of modules.
set -eu
here=$(cd "$(dirname "$0")" && pwd)
oscip=$(realpath "${1:-$here/../crates/oscip/out/oscip}")
shift || true
[ $# -gt 0 ] || set -- banded layered powerlaw chain wide grid zeros
shapes=$*
workers=${WORKERS:-4}
work=$(mktemp -d)
trap 'rm -rf "$work"' EXIT
for program in generate plain_cut; do g++ -O2 -o "$work/$program" "$here/$program.cpp"; done
gcc -O1 -o "$work/peak" "$here/peak.c"

# The solver of a package: its name, the header that it needs, and the package of Debian that has it.
packages=
build() {
  if echo "#include <$2>" | g++ -E -x c++ - > "$work/found" 2>&1; then
    g++ -O2 -w "-D${1^^}" -o "$work/$1" "$here/peer.cpp"
    packages="$packages $1"
  else
    echo "$1 is left out: g++ finds no $2 (on Debian: apt-get install $3; headers elsewhere: set CPATH)"
  fi
}
build lemon lemon/preflow.h liblemon-dev
build boost boost/graph/push_relabel_max_flow.hpp libboost-graph-dev
cd "$work"

stop() {
  echo "$shape, $modules modules: $1"
  exit 1
}

# A row of the table, and its ratios in the file ratios. Words: the times of the program, the plain solver and the packages.
row() {
  python3 - "$shape" "$modules" "$(grep -c '^import ' net)" "$(grep -c '^remove ' report || true)" \
    "${ours#* }" "${plain#* }" "plain $packages" "$@" <<'PY'
import sys
shape, modules, imports, removed, ours, plain = sys.argv[1:7]
times = dict(zip(["oscip"] + sys.argv[7].split(), [float(word) for word in sys.argv[8:]]))
peers = "plain", "lemon", "boost"
ratios = [times["oscip"] / times[name] if name in times else 0 for name in peers] + [int(ours) / int(plain)]
cells = [times.get(name, "-") for name in ("oscip",) + peers] + ["%.1f" % ratio if ratio else "-" for ratio in ratios]
print("%-9s %8s %8s %8s | %9s %9s %9s %9s | %7s %7s %7s | %7s" % (shape, modules, imports, removed, *cells))
with open("ratios", "a") as file:
    print(shape, modules, *ratios, file=file)
PY
}

# The table for the README, and each ratio of times above 5.
figures() {
  python3 - <<'PY'
rows = [line.split() for line in open("ratios")]
rows = [(shape, modules, [float(word) for word in words]) for shape, modules, *words in rows]
print("| Shape | 64 | 512 | 2,048 | 8,192 | LEMON, 8,192 | Boost, 8,192 | Memory, 8,192 |")
print("|---" * 8 + "|")
for shape in dict.fromkeys(shape for shape, _, _ in rows):
    ratios = [ratios for other, _, ratios in rows if other == shape]
    cells = [of_size[0] for of_size in ratios] + ratios[-1][1:]
    print("|", " | ".join([shape] + ["%.1f" % ratio if ratio else "-" for ratio in cells]), "|")
above = ["%s, %s modules: %.1f times %s" % (shape, modules, ratio, name)
         for shape, modules, ratios in rows for ratio, name in zip(ratios, ("plain", "lemon", "boost")) if ratio > 5]
print("Above 5:", "; ".join(above) or "none")
PY
}

printf '%-9s %8s %8s %8s | %9s %9s %9s %9s | %7s %7s %7s | %7s\n' shape modules imports removed \
  oscip_ms plain_ms lemon_ms boost_ms plain lemon boost memory
: > ratios
for shape in $shapes; do
  for modules in ${SIZES:-64 512 2048 8192}; do
    ends=$(./generate "$shape" 1 "$modules" $((8 * modules)) net)
    "$oscip" cut-net net $ends --workers $workers > report || stop "cut-net ends with status $?"
    ./plain_cut net $ends > plain
    grep -E '^(weight|remove) ' report | cmp -s - plain || stop "another weight or other imports than the plain solver's"
    verdict=$("$oscip" check-net net report) || stop "check-net says $verdict"
    [ "$verdict" = yes ] || stop "check-net says $verdict"
    commands=
    for package in $packages; do
      [ "$("./$package" net $ends)" = "$(head -n 1 plain)" ] || stop "another weight than that of $package"
      commands="$commands -- ./$package net $ends"
    done
    times=$(python3 "$here/measure.py" -- "$oscip" cut-net net $ends --workers $workers -- ./plain_cut net $ends $commands)
    ours=$(./peak "$oscip" cut-net net $ends --workers $workers 2>&1 > said)
    plain=$(./peak ./plain_cut net $ends 2>&1 > said)
    row $times
  done
done
echo "plain, lemon, boost: the program's time over theirs; memory: its greatest resident size over the plain solver's"
[ -n "${SIZES:-}" ] || figures
