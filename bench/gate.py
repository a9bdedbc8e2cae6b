"""Times what the gate does, in COPY, a copy of the repository's files: processor seconds are those of a command and its children.

gate.py COPY [run]              runs .ci/run and prints what it cost; what an earlier run on this machine passed is proved by it no more
gate.py COPY proofs [CRATE ..]  prints for each crate, or for those that are named, what it cost to prove it, with its tests where it has
                                some, once all below it was proved (rt ci on a copy of both, as the tests' command calls it)
gate.py COPY edits [CRATE ..]   prints what their edits cost (.ci/edits), behind a run of proofs; where all edits of a crate are refused
                                its line is kept in .ci/tried of this checkout. What rt ci has proved or tried before on this machine
                                has no figure
gate.py COPY slow CRATE         prints the ten functions of a crate that take longest, by the times at which rt check, with one job,
                                prints that each is checked; one that a check on this machine has checked before takes no time

As many crates are timed at once as there are processors, or as JOBS says, and first those with the most lines above them.
"""
import os
import re
import shutil
import subprocess
import sys
import tempfile
import threading
import time

sys.dont_write_bytecode = True
sys.path.insert(0, f"{os.path.dirname(os.path.realpath(__file__))}/../.ci")
from crates import ROOT, below, copied, crates_of, lines_in, processors, side_by_side

KEEPING = threading.Lock()


def timed(folder, *words):
    """Runs a command in a folder, and returns what it printed, its processor and wall seconds, and for each function that it says is
    checked how many seconds behind the line before; where it fails the caller is ended, or catches that."""
    began = last = time.time()
    said, spent = [], {}
    ran = subprocess.Popen(words, cwd=folder, stdin=subprocess.DEVNULL, stdout=subprocess.PIPE, stderr=subprocess.STDOUT, text=True, errors="replace")
    for line in ran.stdout:
        said.append(line)
        now, checked = time.time(), re.match(r"checked (\S+),", line)
        if checked:
            spent[checked[1]] = spent.get(checked[1], 0) + now - last
        last = now
    _, status, used = os.wait4(ran.pid, 0)
    ran.returncode = os.waitstatus_to_exitcode(status)
    if status:
        sys.exit(f"{' '.join(words)} fails in {folder}:\n{''.join(said)[-2000:]}")
    return "".join(said), used.ru_utime + used.ru_stime, time.time() - began, spent


def run(copy):
    said, processor, wall, _ = timed(copy, ".ci/run")
    print(f".ci/run: {processor / 60:.0f} minutes of processor time, {wall / 60:.0f} minutes; its last line: {said.splitlines()[-1]}")


def edits_in(folder):
    return len([it for it in os.listdir(folder) if it.endswith(".edit")]) if os.path.isdir(folder) else 0


def lines_tried(root):
    """The lines of .ci/tried by crate."""
    if not os.path.isfile(f"{root}/.ci/tried"):
        return {}
    with open(f"{root}/.ci/tried", encoding="utf-8") as lines:
        return {it.split()[0]: it for it in lines if it.strip()}


def keep_tried(copy, name):
    """Keeps a crate's line of the copy's .ci/tried in that of this checkout, in the order of crates.txt."""
    with KEEPING:
        kept, new = lines_tried(ROOT), lines_tried(copy)
        kept[name] = new[name]
        with open(f"{ROOT}/.ci/tried.new", "w", encoding="utf-8") as out:
            out.writelines(kept[it] for it in crates_of() if it in kept)
        os.replace(f"{ROOT}/.ci/tried.new", f"{ROOT}/.ci/tried")


def size_of(copy, name):
    folder = f"{copy}/crates/{name}"
    return lines_in(f"{folder}/src", ".rt"), sum(lines_in(f"{folder}/{it}", ".antt") for it in ("specs", "proofs"))


def proof_of(copy, name):
    """What rt ci said of a crate, which it proved with those below it, and the processor and wall seconds of that."""
    with tempfile.TemporaryDirectory() as own:
        copied(copy, crates_of(copy), [name], own)
        said, processor, wall, _ = timed(own, "rt", "ci")
    return said, processor, wall


def edits_tried(copy, name):
    """The processor and wall seconds that a crate's edits took, and why they weren't all refused, or none."""
    with tempfile.TemporaryDirectory() as folder:
        own = f"{folder}/own"
        shutil.copytree(copy, own)
        try:
            said, processor, wall, _ = timed(own, ".ci/edits", name)
        except SystemExit as why:
            return 0, 0, why
        keep_tried(own, name)
    return (0, 0, None) if "were tried by an earlier run" in said else (processor, wall, None)


def proof_row(copy, name):
    """A crate's row, the processor seconds of its proof, and none, since a proof that fails ends the run."""
    said, processor, wall = proof_of(copy, name)
    kept = f"rt: {name} is kept" in said and f"rt: {name}: its tests are proved" not in said
    processor, wall = (0, 0) if kept else (processor, wall)
    functions = re.findall(r"\bfunctions=(\d+)", said)
    return [functions[-1] if functions else 0, *size_of(copy, name), *(f"{it:.0f}" for it in (processor, wall))], processor, None


def edits_row(copy, name):
    """A crate's row, the processor seconds of its edits, and why these weren't all refused, or none."""
    edits = edits_in(f"{copy}/crates/{name}/must-fail")
    processor, wall, why = edits_tried(copy, name) if edits else (0, 0, None)
    return [edits, *(f"{it:.0f}" for it in (processor, wall))], processor, why


def table(copy, names, head, row_of):
    """Prints a row for each crate that is named, or for all, and their sum. Before a proof those below it are proved, without a row."""
    known, total, failed = crates_of(copy), [0], []
    names = names or known
    proving = row_of is proof_row

    def work(name):
        if name not in names:
            return bool(proof_of(copy, name))
        cells, processor, why = row_of(copy, name)
        with KEEPING:
            print(f"| `{name}` | {' | '.join(str(it) if it not in (0, '0') else '-' for it in cells)} |", flush=True)
            total[0] += processor
            failed.extend([why] if why else [])
        return True

    print(f"| {' | '.join(head)} |")
    print("|" + "---|" * len(head), flush=True)
    standing = known if proving else {it: [] for it in names}
    side_by_side(copy, standing, {dep for it in names for dep in [*below(standing, it), it]}, work, int(os.environ.get("JOBS", processors())))
    print(f"\nall: {total[0] / 60:.0f} minutes of processor time")
    for why in failed:
        print(why)
    sys.exit(1 if failed else 0)


def proofs(copy, *names):
    table(copy, names, ["Crate", "Functions", "Lines of code", "of definitions and proofs", "Processor", "wall"], proof_row)


def edits(copy, *names):
    table(copy, names, ["Crate", "Edits", "Processor", "wall"], edits_row)


def slow(copy, name):
    spent = timed(f"{copy}/crates/{name}", "rt", "check", "--jobs", "1")[3]
    own = [it for it in spent if it.startswith(f"{name}::")]
    for function in sorted(own, key=lambda it: -spent[it])[:10]:
        print(f"{spent[function]:6.0f} {function}")


def main(copy, mode="run", *words):
    modes = {"run": run, "proofs": proofs, "edits": edits, "slow": slow}
    if mode not in modes or mode == "run" and words or mode == "slow" and len(words) != 1:
        sys.exit(__doc__)
    modes[mode](copy, *words)


if __name__ == "__main__":
    main(*sys.argv[1:])
