#!/usr/bin/env bash
# Times the scanner, the lines, the parser, tables, scopes, references, documents, their bytes and the walkers of Oberon-07 apart on
# generated modules, beside wc and, where that is there, ctags on the same files, and beside a C compiler's pass over C of the same
# style and size.
# It builds the program of timing/: bench/parse.sh [STEP [SHAPE..]]
# STEP is the last of the steps: scan, parse or walk. With the STEP lines it times what places of tokens cost, and nothing else; with
# the STEP scopes what tables and scopes do, and with emit all steps from a text to the bytes of its document.
# TIMING names a program that is built, KEEP a folder for the files, and PART is what part of them is made (modules.py).
set -eu
here=$(cd "$(dirname "$0")" && pwd)
step=${1:-walk}
shift || true
[ $# -gt 0 ] || set -- files graph large comment nested
work=$(mktemp -d)
trap 'rm -rf "$work"' EXIT
data=${KEEP:-$work/data}
mkdir -p "$data"

timing=${TIMING:-$work/crates/timing/out/timing}
[ -n "${TIMING:-}" ] || "$here/own.py" "$work" timing
gcc -O1 -o "$work/peak" "$here/peak.c"
sources=c
case $step in lines | scopes | emit) sources= ;; esac
for shape in $sources "$@"; do
  [ -d "$data/$shape" ] || python3 "$here/modules.py" "$shape" "$data/$shape"
done
python3 "$here/parse.py" "$timing" "$work/peak" "$step" "$data" "$@"
