#!/usr/bin/env bash
# Kills 200 runs that replace OUT as a whole, each at a random moment. OUT is then whole: the index of the run or the one that was there.
# Each is followed by a run that has to succeed, and leaves no new file.
# Build the program first: .ci/build. Then: bench/kill.sh [PATH OF THE PROGRAM [RUNS [SEED]]]
set -eu
here=$(cd "$(dirname "$0")" && pwd)
oscip=$(realpath "${1:-$here/../crates/oscip/out/oscip}")
runs=${2:-200}
RANDOM=${3:-1}
work=$(mktemp -d)
trap 'rm -rf "$work"' EXIT
cd "$work"
for tree in a b; do
  mkdir $tree
  for number in $(seq 200); do
    { printf 'MODULE M%d; VAR %s: INTEGER; BEGIN ' "$number" $tree
      for _ in $(seq 300); do printf '%s := %s + 1; ' $tree $tree; done
      printf '%s := 0 END M%d.' $tree "$number"; } > "$tree/M$number.Mod"
  done
  "$oscip" index $tree $tree.scip
done
cp a.scip out.scip
# How long a run takes, in microseconds.
begin=${EPOCHREALTIME/[.,]/}
"$oscip" index --atomic b out.scip
whole=$((${EPOCHREALTIME/[.,]/} - begin))
old=b left=0 replaced=0
for run in $(seq "$runs"); do
  [ $old = a ] && new=b || new=a
  [ $((run % 2)) = 0 ] && option=--atomic || option=--skip-faults
  "$oscip" index $option $new out.scip 2> told &
  pid=$!
  moment=$(((RANDOM * 32768 + RANDOM) % (whole + whole / 8)))
  sleep "$(printf '%d.%06d' $((moment / 1000000)) $((moment % 1000000)))"
  kill -KILL $pid 2> /dev/null || true
  wait $pid 2> /dev/null || true
  if [ -e out.scip.oscip-partial ]; then left=$((left + 1)); fi
  if cmp -s out.scip $new.scip; then
    replaced=$((replaced + 1))
  elif ! cmp -s out.scip $old.scip; then
    echo "run $run: OUT isn't whole after a kill"
    exit 1
  fi
  "$oscip" index $option $new out.scip
  if ! cmp -s out.scip $new.scip || [ -e out.scip.oscip-partial ]; then
    echo "run $run: OUT isn't the index of the run behind a kill"
    exit 1
  fi
  old=$new
done
echo "$runs runs killed: $left left a new file, $replaced had replaced OUT"
