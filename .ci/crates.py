"""The crates of this repository, and work on them side by side."""
import os
import re
import shutil
import subprocess
from concurrent.futures import FIRST_COMPLETED, ThreadPoolExecutor, wait

ROOT = os.path.dirname(os.path.dirname(os.path.realpath(__file__)))


def processors():
    return len(os.sched_getaffinity(0))


def crates_of(root=ROOT):
    """The crates of crates.txt in its order, each with the crates of the repository that it names."""
    found = {}
    with open(f"{root}/crates.txt", encoding="utf-8") as lines:
        for line in lines:
            head, colon, tail = line.partition("#")[0].partition(":")
            if colon:
                found[head.split()[0]] = tail.split()
    return {name: [it for it in deps if it in found] for name, deps in found.items()}


def below(crates, name):
    """The crates below this one, each behind those that it stands on."""
    found = []
    for dep in crates[name]:
        found += [it for it in [*below(crates, dep), dep] if it not in found]
    return found


def lines_in(folder, *endings):
    """How many lines the files have whose names end so; no folder has none."""
    found = 0
    for at, _, names in os.walk(folder):
        for it in names:
            if it.endswith(endings):
                with open(f"{at}/{it}", "rb") as text:
                    found += text.read().count(b"\n")
    return found


def copied(root, crates, tops, copy, edits=()):
    """Makes a repository of these crates and those below them, as they stand and with nothing that is built: rt ci proves all of it,
    or takes what an earlier rt ci on this machine has proved. Only the crates that are named by edits have their edits there."""
    own = [*dict.fromkeys(it for top in tops for it in [*below(crates, top), top])]
    os.makedirs(f"{copy}/crates", exist_ok=True)
    shutil.copy(f"{root}/HANDLES", copy)
    with open(f"{root}/crates.txt", encoding="utf-8") as lines, open(f"{copy}/crates.txt", "w", encoding="utf-8") as kept:
        kept.writelines(line for line in lines if re.match(r"\w*", line)[0] in own)
    for it in own:
        left = ["out"] if it in edits else ["out", "must-fail"]
        shutil.copytree(f"{root}/crates/{it}", f"{copy}/crates/{it}", ignore=shutil.ignore_patterns(*left))


def proved(copy):
    """Runs rt ci in a copy, and prints what it says of whole crates and of edits; where it fails, the rest too. Returns its status and
    all that it printed."""
    ran, said = subprocess.Popen(["rt", "ci"], cwd=copy, stdin=subprocess.DEVNULL, stdout=subprocess.PIPE, stderr=subprocess.STDOUT, text=True, errors="replace"), []
    for line in ran.stdout:
        said.append(line)
        if line.startswith("rt: ") and not line.startswith("rt: warning: "):
            print(line, end="", flush=True)
    if ran.wait():
        print("".join(it for it in said if not it.startswith("rt: ")), end="", flush=True)
    return ran.returncode, said


def side_by_side(root, crates, names, work, lanes):
    """Calls work(name) for each of these crates, once those of them that it stands on went well, as many at once as there are lanes,
    and first those with the most lines above them. A crate above one that didn't go well isn't worked on."""
    standing = {it: [dep for dep in below(crates, it) if dep in names] for it in names}
    above = {}
    for it in sorted(names, key=lambda it: -len(below(crates, it))):
        lines = sum(lines_in(f"{root}/crates/{it}/{part}", ".rt", ".antt") for part in ("src", "specs", "proofs"))
        above[it] = lines + max((above[other] for other in above if it in standing[other]), default=0)
    left, well, running = sorted(names, key=lambda it: -above[it]), set(), {}
    with ThreadPoolExecutor(lanes) as pool:
        while left or running:
            for it in [it for it in left if all(dep in well for dep in standing[it])][: lanes - len(running)]:
                left.remove(it)
                running[pool.submit(work, it)] = it
            if not running:
                return
            for done in wait(running, return_when=FIRST_COMPLETED).done:
                name = running.pop(done)
                if done.result():
                    well.add(name)
