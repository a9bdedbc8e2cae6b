#!/usr/bin/env bash
# Runs each script of bench/ on small inputs, to see that it runs to its end; the figures say nothing. It needs g++, gcc, python3 and
# `rt`; ctags, protoc, valgrind, LEMON and Boost are used by the scripts that look for them. Left out are gate.sh, and what does nothing
# without a package: dot.sh, encode.sh and library.sh. It ends with status 1 and names the scripts that fail. The programs of timing/,
# wire/ and workers/ are built while the other scripts run.
# Build the program first: .ci/build. Then: bench/all.sh [PATH OF THE PROGRAM]
set -u
here=$(cd "$(dirname "$0")" && pwd)
oscip=$(realpath "${1:-$here/../crates/oscip/out/oscip}")
work=$(mktemp -d)
trap 'rm -rf "$work"' EXIT
export PART=32
failed=

# short NAME WORD ..: runs these words, and tells how long that took and the last line; where it fails, the last lines.
short() {
  local name=$1 begun=$SECONDS
  shift
  if "$@" > "$work/said" 2>&1; then
    printf '%-18s %4d s  %s\n' "$name" $((SECONDS - begun)) "$(tail -n 1 "$work/said")"
  else
    printf '%-18s %4d s  fails:\n' "$name" $((SECONDS - begun))
    tail -n 20 "$work/said"
    failed="$failed $name"
  fi
}

# Uses of fields behind long chains of types: all of them stand for something.
fields() {
  local shape
  mkdir -p "$work/fields"
  for shape in renamings pointers bases both records names; do
    python3 "$here/fields.py" $shape 200 20 > "$work/fields/Fields.Mod" || return 1
    [ -z "$("$oscip" unresolved "$work/fields")" ] || { echo "$shape: something stands for nothing"; return 1; }
  done
}

# The workloads, in this checkout against itself.
workloads() {
  [ -e "$here/../crates/oscip_bench/out/oscip_bench" ] || { echo "oscip_bench isn't built: nothing is timed"; return 0; }
  TURNS=1 "$here/run" "$here/.." "$here/.."
}

# The tests that are built, with a few allocations of each refused.
refused() {
  local programs
  programs=$(ls "$here"/../crates/*_tests/out/*_tests 2> "$work/none") || { echo "no tests are built: nothing is refused"; return 0; }
  "$here/refuse_tests.py" 10 $programs
}

declare -A building
for name in timing wire workers; do
  "$here/own.py" "$work/$name" $name > "$work/$name.log" 2>&1 &
  building[$name]=$!
done

# Whether this program is built, once that has ended.
built() {
  wait "${building[$1]}" || { cat "$work/$1.log"; return 1; }
}

short run workloads
short run.sh "$here/run.sh" "$oscip"
short cut.sh env SIZES="64 512" "$here/cut.sh" "$oscip"
short differ.sh "$here/differ.sh" "$oscip" 1 300
short refuse.sh "$here/refuse.sh" "$oscip" 97
short kill.sh "$here/kill.sh" "$oscip" 20
short refuse_tests.py refused
short trees.sh "$here/trees.sh" "$oscip"
short walk.sh "$here/walk.sh" "$oscip"
short query.sh "$here/query.sh" "$oscip"
short index.sh "$here/index.sh" "$oscip" 1 50
short foreign.py "$here/foreign.py"
short fields.py fields
short fuzz.sh "$here/fuzz.sh" "$oscip" 4000
short hostile.py env PART=8 "$here/hostile.py" "$oscip" 60
short wire built wire
short wire.sh env WIRE="$work/wire/crates/wire/out/wire" "$here/wire.sh" 30 1000
short workers built workers
short workers.sh env TIMING="$work/workers/crates/workers/out/workers" SIZES=64 "$here/workers.sh"
short timing built timing
for step in scan lines parse scopes emit walk; do
  short "parse.sh $step" env TIMING="$work/timing/crates/timing/out/timing" KEEP="$work/data" "$here/parse.sh" $step
done
[ -z "$failed" ] || { echo "these fail:$failed"; exit 1; }
