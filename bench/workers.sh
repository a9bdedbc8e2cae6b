#!/usr/bin/env bash
# Times one preflow that is settled, and the solver with 1, 2, 4 and 8 workers, beside the plain solver, on generated networks:
# steps, nanoseconds a step, and ratios. All of them have to find the same weight.
# It builds the program of workers/: bench/workers.sh [SHAPE..]
# SIZES names the numbers of modules, TIMING a program that is built.
set -eu
here=$(cd "$(dirname "$0")" && pwd)
[ $# -gt 0 ] || set -- banded layered powerlaw chain wide grid zeros
work=$(mktemp -d)
trap 'rm -rf "$work"' EXIT
g++ -O2 -o "$work/generate" "$here/generate.cpp"

timing=${TIMING:-$work/crates/workers/out/workers}
[ -n "${TIMING:-}" ] || "$here/own.py" "$work" workers
printf '%-9s %8s %8s %10s %8s | %7s | %7s %7s %7s %7s\n' \
  shape modules imports steps ns/step plain one two four eight
for shape in "$@"; do
  for modules in ${SIZES:-64 512}; do
    ends=$("$work/generate" "$shape" 1 "$modules" $((8 * modules)) "$work/net")
    # Each time is the least of three rounds. The ratios are the times over that of settling.
    for _ in 1 2 3; do "$timing" "$work/net" $ends; done > "$work/said"
    awk -v shape="$shape" -v modules="$modules" -v imports="$(grep -c '^import ' "$work/net")" '
      function least(name, time) { if (!(name in best) || time < best[name]) best[name] = time }
      $1 == "steps" { steps = $2; least("settle", $4) }
      $3 == "weight" { least($1, $2); if (weight != "" && weight != $4) wrong = 1; weight = $4 }
      END {
        if (wrong) { print shape, modules ": two weights"; exit 1 }
        s = best["settle"]
        printf "%-9s %8d %8d %10d %8.0f | %7.2f | %7.2f %7.2f %7.2f %7.2f\n", shape, modules, imports, steps,
          s / steps, best["plain"] / s, best["solve1"] / s, best["solve2"] / s, best["solve4"] / s, best["solve8"] / s
      }' "$work/said"
  done
done
