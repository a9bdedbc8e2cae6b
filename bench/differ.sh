#!/usr/bin/env bash
# Compares cut-net with its definitions on small random networks, and asks check-net of each report.
# Build the program first: .ci/build.
# Then: bench/differ.sh [PATH OF THE PROGRAM [SEED [CASES]]]
set -eu
here=$(cd "$(dirname "$0")" && pwd)
oscip=$(realpath "${1:-$here/../crates/oscip/out/oscip}")
work=$(mktemp -d)
trap 'rm -rf "$work"' EXIT
cd "$work"
python3 "$here/differ.py" "$oscip" "${2:-1}" "${3:-3000}"
