#!/usr/bin/env python3
"""Refuses each allocation of each test, until there is none more: each in a child of one run that goes on without it.

Each has to pass, to end for want of memory, or to tell that in place of what it had to tell. Where a gate orders the turns of
workers, a worker to which memory was refused ends alone, and so the turns that wait for it are missed. Where workers are counted, one
that couldn't be started is missing. Where events are tried in turn, the one that was refused is tried again later, and so all ends in
the same way after another number of steps.

bench/refuse_tests.py [MOST] PROGRAM ..: programs of tests, as `rt test` leaves them in crates/NAME/out/NAME_tests. With MOST at most so
many allocations of each test are refused, spread evenly. As many tests are tried at once as there are processors.
"""
import os
import re
import signal
import subprocess
import sys
import tempfile
from concurrent.futures import ThreadPoolExecutor

HERE = os.path.dirname(os.path.realpath(__file__))
WANTS = re.compile(rb"\b(Memory|AllocError|AllocFailed|Refused|memory ran out)\b")
MISSED = b"were_all_waits_ended()"
COMPARED = re.compile(rb'left: (".*")\n right: (".*")')
LISTED = re.compile(rb"left: \[(\d[\d, ]*)\]\n")
COUNTED = re.compile(rb"left: (\d+)\n right: (\d+)\n")
STEPS = re.compile(rb"after \d+")
PASSES, WANTS_MEMORY, MISSES, FEWER, OTHER_STEPS, ANOTHER = "pass", "want memory", "miss turns", "miss a worker", "take other steps", "end in another way"


def text_told(said):
    """The text that a test compared as bytes with what it has to be, or nothing."""
    listed = LISTED.search(said)
    numbers = [int(it) for it in listed[1].split(b",")] if listed else []
    return bytes(numbers) if max(numbers, default=0) < 256 else b""


def how_ended(status, said):
    """How a run with this status ended, by what it said. A test that stops ends by a signal."""
    if status == 0:
        return PASSES
    if status is None:
        return ANOTHER
    if WANTS.search(said) or WANTS.search(text_told(said)):
        return WANTS_MEMORY
    if MISSED in said:
        return MISSES
    counted = COUNTED.search(said)
    if counted and int(counted[1]) < int(counted[2]):
        return FEWER
    compared = COMPARED.search(said)
    if compared and STEPS.sub(b"", compared[1]) == STEPS.sub(b"", compared[2]):
        return OTHER_STEPS
    return ANOTHER


def each(program, test, step, shim, folder):
    """Refuses every allocation of so many, and gives the number of each, how the test ended without it, and what it said."""
    ends = f"{folder}/ends"
    env = {**os.environ, "LD_PRELOAD": shim, "REFUSE_EACH": ends, "REFUSE_STEP": str(step)}
    subprocess.run([program, test], env=env, stdin=subprocess.DEVNULL, stdout=subprocess.DEVNULL, stderr=subprocess.DEVNULL, check=True)
    with open(ends, "rb") as told:
        for line in told:
            number, status, length = map(int, line.split())
            said = told.read(length)
            is_late = os.WIFSIGNALED(status) and os.WTERMSIG(status) == signal.SIGALRM
            yield number, how_ended(None if is_late else status, said), said


def allocations(program, test, shim, folder):
    """How many allocations the test makes, or up to twice as many."""
    note, number = f"{folder}/note", 1
    while True:
        env = {**os.environ, "LD_PRELOAD": shim, "REFUSE_AT": str(number), "REFUSE_NOTE": note}
        subprocess.run([program, test], env=env, stdin=subprocess.DEVNULL, stdout=subprocess.DEVNULL, stderr=subprocess.DEVNULL)
        if not os.path.exists(note):
            return number
        os.remove(note)
        number *= 2


def tried(program, test, shim, folder, most):
    """Refuses one allocation after the other, and returns how many runs ended in another way than they may."""
    step = -(-allocations(program, test, shim, folder) // most) if most else 1
    counts = {}
    for number, how, said in each(program, test, step, shim, folder):
        counts[how] = counts.get(how, 0) + 1
        if how == ANOTHER:
            print(f"{test}, allocation {number}: {said[-300:]!r}", flush=True)
    print(f"{os.path.basename(program)} {test}:", ", ".join(f"{count} {how}" for how, count in counts.items()), flush=True)
    return counts.get(ANOTHER, 0)


def tests_of(program):
    listed = subprocess.run([program, "--list"], stdout=subprocess.PIPE, text=True, check=True).stdout
    return [(program, test) for test in re.findall(r"^(\S+): test$", listed, re.MULTILINE)]


def main(words):
    most = int(words[0]) if words[0].isdigit() else 0
    programs = words[1:] if most else words
    with tempfile.TemporaryDirectory() as folder, ThreadPoolExecutor(len(os.sched_getaffinity(0))) as pool:
        shim = f"{folder}/refuse.so"
        subprocess.run(["gcc", "-shared", "-fPIC", "-O1", "-o", shim, f"{HERE}/refuse.c", "-ldl"], check=True)

        def wrong_in(asked):
            with tempfile.TemporaryDirectory(dir=folder) as own:
                return tried(*asked, shim, own, most)

        asked = [it for program in map(os.path.realpath, programs) for it in tests_of(program)]
        return 1 if sum(pool.map(wrong_in, asked)) else 0


if __name__ == "__main__":
    sys.exit(main(sys.argv[1:]))
