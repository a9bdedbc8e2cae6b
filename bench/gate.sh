#!/usr/bin/env bash
# Times the tests' command, or the proof of each crate, or its edits, whose lines it keeps in .ci/tried, or the functions of one:
# bench/gate.sh [run | proofs [CRATE ..] | edits [CRATE ..] | slow CRATE]
set -eu
cd "$(dirname "$0")/.."
copy=$(mktemp -d)
trap 'rm -rf "$copy" "$copy".*' EXIT
git ls-files -z | xargs -0 cp --parents -t "$copy"
python3 bench/gate.py "$copy" "$@"
