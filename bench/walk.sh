#!/usr/bin/env bash
# Runs cut and check on folders of many kinds, and compares standard output, standard error and status with what they have to be.
# Build the program first: .ci/build. Then: bench/walk.sh [PATH OF THE PROGRAM]
set -eu
here=$(cd "$(dirname "$0")" && pwd)
oscip=$(realpath "${1:-$here/../crates/oscip/out/oscip}")
work=$(mktemp -d)
trap 'chmod -R u+rwx "$work"; rm -rf "$work"' EXIT
cd "$work"
failed=0 passed=0
program=("$oscip") no_flow=

# row STATUS OUTPUT ERROR WORDS..: both texts as printf prints them, each with its last LF. Where no_flow is set, flow lines are left out.
row() {
  local status=$1 got=0
  printf "$2" > wanted_output
  printf "$3" > wanted_error
  shift 3
  timeout 20 "${program[@]}" "$@" > output 2> error < /dev/null || got=$?
  [ -z "$no_flow" ] || sed -i '/^flow /d' output
  if [ $got = "$status" ] && cmp -s output wanted_output && cmp -s error wanted_error; then
    passed=$((passed + 1))
  else
    failed=$((failed + 1))
    echo "$*: status $got in place of $status"
    diff wanted_output output || true
    diff wanted_error error || true
  fi
}

# file PATH NAME [IMPORT..]: the text of a module that uses each of its imports once.
file() {
  local path=$1 name=$2 import separator=
  shift 2
  mkdir -p "$(dirname "$path")"
  {
    printf 'MODULE %s;\n' "$name"
    if [ $# -gt 0 ]; then
      printf '  IMPORT'
      for import in "$@"; do printf '%s %s' "$separator" "$import"; separator=,; done
      printf ';\nBEGIN\n'
      for import in "$@"; do printf '  %s.P;\n' "$import"; done
    fi
    printf 'END %s.\n' "$name"
  } > "$path"
}

chain='cut A C\nweight 1\nremove A B 1\nflow A B 1\nflow B C 1\nend\n'
printf "$chain" > chain.cut

# Nested folders, and endings in upper and lower case. What ends otherwise is no module, whatever it holds.
file nested/A.Mod A B
file nested/deep/er/B.mod B C
file nested/deep.Mod/C.Mod C
file nested/D.MOD A
file nested/Mod A
file nested/E.Mod.bak A
file nested/F.mod~ A
file nested/G.oMod A
mkdir -p nested/empty/emptier
row 0 "$chain" '' cut nested A C
row 0 "$chain" '' cut nested/ A C
row 0 "$chain" '' cut ./nested// A C
row 0 'yes\n' '' check nested chain.cut
sed 's/^flow B C 1/flow B C 2/' chain.cut > over.cut
row 5 'no OverWeight B C\n' '' check nested over.cut
row 1 '' 'oscip: SameModule\n' cut nested A A
row 1 '' 'oscip: NoSuchModule Absent\n' cut nested A Absent

# A name that is the ending alone.
file bare/.Mod A B
file bare/.mod B C
file bare/x.Mod C
row 0 "$chain" '' cut bare A C

# Links to a file and to a folder, and those that lead nowhere.
file linked/A.Mod A B
file apart/deep/C.Mod C
file text B C
ln -s ../text linked/B.Mod
ln -s ../apart linked/more
ln -s gone linked/nothing
ln -s ../text/gone linked/below_a_file
ln -s itself linked/itself
row 0 "$chain" '' cut linked A C
ln -s linked way
row 0 "$chain" '' cut way A C
ln -s gone linked/gone.Mod
row 3 '' 'oscip: cannot read linked/gone.Mod\n' cut linked A C
rm linked/gone.Mod
ln -s itself.mod linked/itself.mod
row 3 '' 'oscip: cannot read linked/itself.mod\n' cut linked A C

# A link to a folder above ends at the limit of levels, and so do several.
steps() { local path= step; for step in $(seq "$2"); do path="$path$1"; done; printf %s "$path"; }
file looped/A.Mod A
ln -s . looped/up
row 3 '' "oscip: cannot read looped$(steps /up 33)\n" cut looped A B
ln -s . looped/back
row 3 '' "oscip: cannot read looped$(steps /back 33)\n" cut looped A B

# A path that is too long for the system, before the limit of levels.
name=$(steps l 200)
file lengthy/A.Mod A
ln -s . "lengthy/$name"
row 3 '' "oscip: cannot read lengthy$(steps "/$name" 21)\n" cut lengthy A B

# What isn't there, or is no folder.
row 3 '' 'oscip: cannot read missing\n' cut missing A C
row 3 '' 'oscip: cannot read missing\n' check missing chain.cut
row 3 '' 'oscip: cannot read missing/\n' cut missing/ A C
row 3 '' 'oscip: cannot read text\n' cut text A C
row 3 '' 'oscip: cannot read \n' cut '' A C
mkfifo pipe
row 3 '' 'oscip: cannot read pipe\n' cut pipe A C
ln -s gone lost
row 3 '' 'oscip: cannot read lost\n' cut lost A C

# The folder is read before the report.
row 3 '' 'oscip: cannot read missing\n' check missing missing.cut
row 3 '' 'oscip: cannot read missing.cut\n' check nested missing.cut
row 3 '' 'oscip: cannot read nested\n' check nested nested

# A module that is no regular file, and one of another name.
file pipes/A.Mod A B
file pipes/B.Mod B C
file pipes/C.Mod C
mkfifo pipes/pipe
row 0 "$chain" '' cut pipes A C
mkfifo pipes/D.Mod
row 3 '' 'oscip: cannot read pipes/D.Mod\n' cut pipes A C
rm pipes/D.Mod
ln -s /dev/zero pipes/E.mod
row 3 '' 'oscip: cannot read pipes/E.mod\n' cut pipes A C

# The first by path of two that can't be read; all names come before the first file.
mkfifo pipes/D.Mod
row 3 '' 'oscip: cannot read pipes/D.Mod\n' cut pipes A C
mkdir pipes/z
ln -s . pipes/z/z
row 3 '' "oscip: cannot read pipes/z$(steps /z 32)\n" cut pipes A C

# A name that isn't UTF-8 is told of by its folder, whatever its ending.
file bytes/A.Mod A B
file bytes/deep/B.Mod B C
: > "$(printf 'bytes/deep/\377')"
row 3 '' 'oscip: cannot read bytes/deep\n' cut bytes A B
mv "$(printf 'bytes/deep/\377')" "$(printf 'bytes/\377.Mod')"
row 3 '' 'oscip: cannot read bytes\n' cut bytes A B

# The 32nd level is read. The 33rd may have files, but no folder.
file levels/A.Mod A B
file "levels$(steps /f 31)/B.Mod" B C
file "levels$(steps /f 32)/C.Mod" C
row 0 "$chain" '' cut levels A C
mkdir "levels$(steps /f 33)"
row 3 '' "oscip: cannot read levels$(steps /f 33)\n" cut levels A C
row 0 "$chain" '' cut nested A C

# Two files with faults, in different phases: the lesser path is told of. A dash is below a dot, which is below a slash.
file faults/A.Mod A
printf 'MODULE B\n' > faults/b.Mod
printf 'MODULE C; VAR x, x: INTEGER; END C.\n' > faults/b-c.Mod
row 1 '' 'oscip: b-c.Mod:0:17: Twice x\n' cut faults A B
rm faults/b-c.Mod
mkdir faults/b
printf 'MODULE C; VAR x, x: INTEGER; END C.\n' > faults/b/c.Mod
printf 'MODULE B;\nVAR x, x: INTEGER; END B.\n' > faults/b.Mod
row 1 '' 'oscip: b.Mod:1:7: Twice x\n' cut faults A B
rm faults/b.Mod
row 1 '' 'oscip: b/c.Mod:0:17: Twice x\n' cut faults A B

# Two files with modules of one name, and modules that import one another.
file twice/a/A.Mod A
file twice/B.Mod A
row 1 '' 'oscip: TwoModules A B.Mod a/A.Mod\n' cut twice A B
file cycle/A.Mod A B
file cycle/B.Mod B A
row 1 '' 'oscip: Cycle A B\n' cut cycle A B

# Of the longest file that is allowed, and of one a byte longer.
module='MODULE B; IMPORT C; BEGIN C.P END B.'
file long/A.Mod A B
file long/C.Mod C
{ printf %s "$module"; head -c $((16777216 - ${#module})) /dev/zero | tr '\0' ' '; } > long/B.Mod
row 0 "$chain" '' cut long A C
printf ' ' >> long/B.Mod
row 1 '' 'oscip: B.Mod:0:0: TooLong\n' cut long A C

# An empty folder has no modules.
row 1 '' 'oscip: NoSuchModule A\n' cut nested/empty A B

# The example of the README: of its flow there are several.
editor=$here/../examples/editor
no_flow=1 row 0 'cut Edit Net\nweight 5\nremove Dictionary Sync 1\nremove Edit Sync 1\nremove Log Mail 1\nremove Printer Spooler 2\nend\n' '' cut "$editor" Edit Net
"$oscip" cut "$editor" Edit Net > edit.cut
row 0 'yes\n' '' check "$editor" edit.cut

# A number of workers that isn't 1 to 64.
for number in 0 65; do
  error="error: invalid value '$number' for '--workers <N>': $number is not in 1..=64\n\nFor more information, try '--help'.\n"
  row 2 '' "$error" cut --workers $number nested A C
  row 2 '' "$error" cut-net --workers $number nested A C
done
for number in 1 64; do row 0 "$chain" '' cut --workers $number nested A C; done

# What may not be read. Root can read all, so root runs these rows as another user, with a copy of the program.
if [ "$(id -u)" = 0 ]; then
  chmod a+rx .
  cp "$oscip" copy
  program=(setpriv --reuid=65534 --regid=65534 --clear-groups ./copy)
fi
file barred/A.Mod A B
file barred/deep/B.Mod B C
chmod a-r barred/deep/B.Mod
row 3 '' 'oscip: cannot read barred/deep/B.Mod\n' cut barred A B
chmod a-r barred/deep
row 3 '' 'oscip: cannot read barred/deep\n' cut barred A B
chmod a+r,a-x barred/deep
row 3 '' 'oscip: cannot read barred/deep/B.Mod\n' cut barred A B
chmod a+x barred/deep
: > barred/deep/notes
chmod a-x barred/deep
row 3 '' 'oscip: cannot read barred/deep/B.Mod\n' cut barred A B
chmod a+rx barred/deep
chmod a+r barred/deep/B.Mod
chmod a-r barred/deep/notes
row 0 "$chain" '' cut barred A C
# What is no module, and can't be looked at.
mkdir barred/closed
: > barred/closed/notes
ln -s closed/notes barred/link
ln -s "$(steps n 300)" barred/long
chmod a-x barred/closed
row 0 "$chain" '' cut barred A C

echo "$passed passed, $failed failed"
[ $failed = 0 ]
