#!/usr/bin/env bash
# Lets each allocation by malloc or realloc of a run fail, one in each of as many runs. Each run has to end with its right output, or with
# Memory, status 4 and at most a prefix of the right output. The flow of a cut may be another one of the same value, since it depends on
# the workers' steps; check-net and check have to say yes to it. What a run writes into the file out.scip counts as standard output. A run
# that replaces out.scip as a whole has to leave it right or as it was, with nothing beside it.
# Build the program first: .ci/build. Then: bench/refuse.sh [PATH OF THE PROGRAM [STEP]]
# STEP is the distance between two failing allocations, 1 without it.
set -eu
here=$(cd "$(dirname "$0")" && pwd)
oscip=$(realpath "${1:-$here/../crates/oscip/out/oscip}")
step=${2:-1}
work=$(mktemp -d)
trap 'rm -rf "$work"' EXIT
gcc -shared -fPIC -O1 -o "$work/refuse.so" "$here/refuse.c" -ldl
g++ -O2 -o "$work/generate" "$here/generate.cpp"
cd "$work"
cp "$here"/../examples/*.net "$here"/../examples/*.cut "$here"/../examples/*.scip "$here"/../examples/*.prices "$here"/../examples/*.rules .
head -c 3000 foreign.scip > short.scip
cp -r "$here"/../examples/editor .
printf 'import A B 1\nimport B C 1\nimport C A 1\n' > cycle.net
printf 'import A B 1\nimport A B 1\n' > twice.net
printf 'import A B 18446744073709551615\nimport B C 1\n' > overflow.net
printf 'import A B 0\nimport B C 0\nimport A C 0\n' > zero.net
sed 's/^flow A M 2/flow A M 3/' six.cut > over.cut
sed '/^end/d' six.cut > short.cut
ends=$(./generate layered 1 64 512 layered.net)
printf 'pin A M\n' > pin.prices
printf 'pin A M\npin M B\n' > pins.prices
printf 'pin A M\nprice M B 1\npin M B\n' > twice.prices
printf 'price A M 1099511627776\n' > dear.prices
printf 'cut A B\nweight 2\nremove M B 2\nflow A M 2\nflow M B 2\nend\n' > pinned.cut
printf 'cut A B\nblocked A M B\nend\n' > blocked.cut
printf 'forbid A D\nset S B\nset S C\nfolder T b\nforbid S D\nforbid T D\nallow B D\n' > four.rules
printf 'allow A B\nallow A B\n' > twice.rules

mkdir -p four/b wrong twice ring broken
printf 'MODULE A; IMPORT B, C; BEGIN B.p; C.q; C.q END A.' > four/A.Mod
printf 'MODULE B; IMPORT D; PROCEDURE p*; BEGIN D.x; D.x; D.x END p; END B.' > four/b/B.mod
printf 'MODULE C; IMPORT E := D; PROCEDURE q*; BEGIN E.x END q; END C.' > four/C.Mod
printf 'MODULE D; PROCEDURE x*; END x; END D.' > four/D.Mod
printf 'MODULE A; IMPORT A; BEGIN A.x END B.' > wrong/A.Mod
printf 'MODULE A; VAR r: RECORD a, a: SET END; END A.' > twice/A.Mod
printf 'MODULE A; IMPORT B; END A.' > ring/A.Mod
printf 'MODULE B; IMPORT A; END B.' > ring/B.Mod
printf 'MODULE C; END D.' > ring/C.Mod
cp -r four/* broken
printf '?' > broken/E.Mod
printf 'MODULE F; VAR x, x: SET; END F.' > broken/F.Mod
printf 'cut A D\nweight 2\nremove A B 1\nremove C D 1\nflow A B 1\nflow A C 1\nflow B D 1\nflow C D 1\nend\n' > four.cut

# Whether the run ended for want of memory, and told before only of files that it leaves out.
is_memory() {
  [ $status = 4 ] && [ "$(tail -n 1 told)" = 'oscip: Memory' ] && ! sed '$d' told | grep -qvxFf left
}

# The lines that may come before Memory: those of files that are left out.
keep_left() {
  case " $* " in
    *' --skip-faults '*) cp said left ;;
    *) : > left ;;
  esac
}

# Whether standard output is right but for its flow, which has to pass the check.
is_right() {
  cmp -s got right && return
  cmp -s <(sed '/^flow /d' got) <(sed '/^flow /d' right) && [ "$("$oscip" ${1/cut/check} "${@:2:$#-3}" got)" = yes ]
}

# The words of a run, after the status with which it ends where nothing is refused.
trial() {
  local wanted=$1 number=1 refusals=0 same=0 right status
  shift
  : > out.scip
  "$oscip" "$@" > right 2> said && right=0 || right=$?
  cat out.scip >> right
  keep_left "$@"
  [ $right = $wanted ] || { echo "$*: status $right, $(head -n 1 said)"; exit 1; }
  while :; do
    rm -f refused
    : > out.scip
    REFUSE_AT=$number REFUSE_NOTE=refused LD_PRELOAD="$work/refuse.so" "$oscip" "$@" > got 2> told && status=0 || status=$?
    [ -e refused ] || break
    cat out.scip >> got
    if is_memory && head -c "$(wc -c < got)" right | cmp -s - got; then
      refusals=$((refusals + 1))
    elif [ $status = $right ] && is_right "$@" && cmp -s told said; then
      same=$((same + 1))
    else
      echo "$*, allocation $number: status $status, $(head -n 1 told)"
      exit 1
    fi
    number=$((number + step))
  done
  [ $refusals -gt 0 ] || { echo "$*: nothing ends in Memory"; exit 1; }
  echo "$*: $refusals refusals end in Memory, $same change nothing ($(cat said right | head -n 1), status $right)"
}

# A run that replaces out.scip as a whole, after its status if no allocation fails.
whole() {
  local wanted=$1 number=1 refusals=0 same=0 right status
  shift
  printf 'as it was' > out.scip
  "$oscip" "$@" out.scip > right 2> said && right=0 || right=$?
  cp out.scip right.scip
  keep_left "$@"
  [ $right = $wanted ] || { echo "$*: status $right, $(head -n 1 said)"; exit 1; }
  while :; do
    rm -f refused
    printf 'as it was' > out.scip
    REFUSE_AT=$number REFUSE_NOTE=refused LD_PRELOAD="$work/refuse.so" "$oscip" "$@" out.scip > got 2> told && status=0 || status=$?
    [ -e refused ] || break
    if is_memory && is_whole; then
      refusals=$((refusals + 1))
    elif [ $status = $right ] && cmp -s out.scip right.scip && cmp -s told said && [ ! -e out.scip.oscip-partial ]; then
      same=$((same + 1))
    else
      echo "$*, allocation $number: status $status, $(head -n 1 told)"
      exit 1
    fi
    number=$((number + step))
  done
  [ $refusals -gt 0 ] || { echo "$*: nothing ends in Memory"; exit 1; }
  echo "$*: $refusals refusals end in Memory, $same change nothing ($(cat said right | head -n 1), status $right)"
}

# Whether nothing is beside out.scip, and it is as it was, or right and all lines of left-out files but one are told.
is_whole() {
  [ -e out.scip.oscip-partial ] && return 1
  printf 'as it was' | cmp -s - out.scip || { cmp -s out.scip right.scip && [ -s left ] && [ "$(wc -l < told)" = "$(wc -l < left)" ]; }
}

trial 0 check-net six.net six.cut
trial 0 check-net large.net large.cut
trial 5 check-net six.net over.cut
for words in "six.net short.cut" "cycle.net six.cut" "twice.net six.cut" "overflow.net six.cut"; do
  trial 1 check-net $words
done
trial 3 check-net six.net absent.cut
trial 2 check-net six.net
for words in "six.net A B" "large.net Editor Net" "large.net Net Editor" "zero.net A C" "layered.net $ends"; do
  trial 0 cut-net $words
done
for words in "six.net A A" "six.net A Absent" "six.net Absent A" "cycle.net A B" "twice.net A B" "overflow.net A B"; do
  trial 1 cut-net $words
done
trial 3 cut-net absent.net A B
trial 2 cut-net six.net A
for workers in 0 65; do
  trial 2 cut-net --workers $workers six.net A B
done
for prices in pin pins; do
  trial 0 cut-net --prices=$prices.prices six.net A B
done
for prices in twice dear; do
  trial 1 cut-net --prices=$prices.prices six.net A B
done
trial 3 cut-net --prices=absent.prices six.net A B
trial 0 check-net --prices=pin.prices six.net pinned.cut
trial 0 check-net --prices=pins.prices six.net blocked.cut
trial 5 check-net --prices=pin.prices six.net blocked.cut
trial 5 check-net --prices=pin.prices six.net six.cut
trial 1 check-net --prices=twice.prices six.net six.cut
trial 0 dot-net --prices=pin.prices six.net pinned.cut
trial 0 dot-net --prices=pins.prices six.net blocked.cut
trial 0 cut four A D
trial 0 cut editor Edit Net
trial 0 cut --prices=editor.prices editor Edit Net
trial 0 check four four.cut
for words in "four A Z" "wrong A D" "twice A D"; do
  trial 1 cut $words
done
trial 3 cut absent A D
trial 0 dot-net six.net six.cut
trial 0 dot-net large.net large.cut
trial 0 dot four four.cut
trial 0 dot-net --flow large.net large.cut
trial 0 dot-net --flow --prices=pins.prices six.net blocked.cut
trial 0 dot --flow four four.cut
trial 0 crossings four B D
trial 0 crossings editor Printer Spooler
trial 1 crossings four A Absent
trial 0 net four
trial 0 net editor
trial 1 net wrong
trial 5 rules four four.rules
trial 0 rules editor editor.rules
trial 1 rules four twice.rules
trial 1 rules wrong four.rules
trial 3 rules four absent.rules
trial 5 rules --skip-faults --editor broken four.rules
trial 0 modules editor
trial 0 modules --editor four
trial 0 modules --exclude b --exclude '*/*.mod' --exclude 'E*' four
trial 5 modules --skip-faults broken
trial 0 reach editor Edit
trial 0 reach --back four D
trial 1 reach four Absent
trial 0 reach-net large.net Editor
trial 5 net --skip-faults broken
trial 0 cut --exclude E.Mod --exclude 'F*' broken A D
trial 0 faults editor
trial 5 faults wrong
trial 0 why four A D
trial 5 why four D A
trial 1 why four A Absent
trial 0 why-net large.net Editor Net
trial 1 why-net cycle.net A B
trial 1 dot-net six.net short.cut
trial 1 dot-net cycle.net six.cut
trial 1 dot wrong four.cut
trial 3 dot-net six.net absent.cut
trial 2 dot-net six.net
trial 0 index four --hex
trial 0 index four out.scip
trial 0 index --workers 1 editor --hex
whole 0 index --atomic four
whole 5 index --skip-faults broken
whole 1 index --atomic wrong
whole 1 index --skip-faults ring
trial 5 index --skip-faults --hex broken
trial 0 unresolved four
trial 0 unresolved editor
trial 1 index twice --hex
trial 1 unresolved wrong
trial 3 index absent --hex
trial 2 index four
trial 0 def foreign.scip src/view.ts 2 19
trial 0 refs foreign.scip src/view.ts 6 9
trial 1 def foreign.scip view.ts 2 19
trial 1 refs short.scip src/view.ts 2 19
trial 0 symbols foreign.scip
trial 0 symbols foreign.scip src/view.ts
trial 1 symbols foreign.scip view.ts
trial 1 symbols short.scip
trial 0 symbol foreign.scip src/view.ts 2 19
trial 1 symbol short.scip src/view.ts 2 19
trial 0 refs --symbol 'local 1' foreign.scip src/view.ts
trial 2 refs --symbol 'local 1' foreign.scip
trial 2 def foreign.scip view.ts x 19
