#!/usr/bin/env bash
# Runs the program on every front of the examples, on each of them with one byte changed at each place, and on seeded changes of them,
# for every command: no run may crash, take two seconds, or end with a status or a line that isn't documented. With fewer than 100,000
# RUNS, which are those on seeded changes, there are no others.
# Build the program first: .ci/build. Then: bench/fuzz.sh [PROGRAM [RUNS [SEED]]]
set -eu
here=$(cd "$(dirname "$0")" && pwd)
oscip=$(realpath "${1:-$here/../crates/oscip/out/oscip}")
runs=${2:-1000000}
seed=${3:-1}
lanes=$(nproc)
work=$(mktemp -d)
trap 'rm -rf "$work"' EXIT
g++ -O2 -std=c++17 -o "$work/fuzz" "$here/fuzz.cpp"
[ -w /dev/shm ] && export TMPDIR=/dev/shm
started=()
if [ "$runs" -ge 100000 ]; then
  "$work/fuzz" "$oscip" "$here/../examples" 0 0 &
  started+=($!)
fi
for lane in $(seq "$lanes"); do
  "$work/fuzz" "$oscip" "$here/../examples" $((seed * 1000 + lane)) $(((runs + lanes - 1) / lanes)) &
  started+=($!)
done
wrong=0
for it in "${started[@]}"; do
  wait "$it" || wrong=1
done
exit $wrong
