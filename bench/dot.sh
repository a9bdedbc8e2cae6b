#!/usr/bin/env bash
# Gives pictures to Graphviz: each has to be a graph that it draws, with each module and each import of the picture.
# Build the program first: .ci/build. Then: bench/dot.sh [PATH OF THE PROGRAM]
set -eu -o pipefail
here=$(cd "$(dirname "$0")" && pwd)
oscip=$(realpath "${1:-$here/../crates/oscip/out/oscip}")
command -v dot > /dev/null || { echo "Graphviz isn't there: nothing is tried"; exit 0; }
work=$(mktemp -d)
trap 'rm -rf "$work"' EXIT
cd "$work"
drawn=0

# draw NAME: the picture NAME.dot is drawn, with as many modules and imports as it has lines of them.
draw() {
  local modules imports
  dot -Tsvg "$1.dot" > "$1.svg"
  imports=$(grep -c -- ' -> ' "$1.dot" || true)
  modules=$(($(grep -c '^  "' "$1.dot") - imports))
  if [ "$(grep -c 'class="node"' "$1.svg")" != $modules ] || [ "$(grep -c 'class="edge"' "$1.svg" || true)" != "$imports" ]; then
    echo "$1: not $modules modules and $imports imports"
    exit 1
  fi
  drawn=$((drawn + 1))
}

"$oscip" cut --workers 1 "$here/../examples/editor" Edit Net > edit.cut
"$oscip" dot "$here/../examples/editor" edit.cut > edit.dot
draw edit
"$oscip" dot --flow "$here/../examples/editor" edit.cut > flow.dot
draw flow
printf 'import node Graph 1\nimport Graph edge 0\nimport edge subgraph 2\nimport subgraph strict 1\n' > kept.net
"$oscip" cut-net kept.net node strict > kept.cut
"$oscip" dot-net kept.net kept.cut > kept.dot
draw kept
printf 'cut node strict\nweight 0\nend\n' > nothing.cut
"$oscip" dot-net kept.net nothing.cut > nothing.dot
draw nothing
printf 'cut strict node\nweight 0\nend\n' > apart.cut
"$oscip" dot-net kept.net apart.cut > apart.dot
draw apart
echo "$drawn pictures are drawn"
