#!/usr/bin/env python3
"""Gives the program files that shrink and grow while it reads them, and input that was made to do harm.

Each run has to end with a status that is documented, and with one line where it refuses. Of the harmful input it tells the memory that
the program takes beyond what it takes for its help, over the bytes, the processor seconds, and the time at twice the bytes over that at
once, each time the least of three; where valgrind is there, of a part of it the instructions at twice the bytes over those at once too.
Then, by valgrind, it counts the instructions of some networks, and of trees and indexes, each made against one table, search or
look-ahead, those at twice the bytes over those at once. Then it tells the times of numbers of many bytes in an index over those of as
many bytes in numbers of one byte. Last it gives the program an address space that is just enough: there it has to answer, or to tell
want of memory, within some seconds; folders to which many paths of links lead, with as many names as there may be, with one more, and
with a link to itself; and the memory of texts that are much longer than their input.

Each row ends with what is wrong, as more than it may take, or with `ok`. The status is 1 where something is wrong.

Build the program first: .ci/build. Then: bench/hostile.py [PROGRAM [RUNS]]. `cc` compiles
`colliding.c`, which makes names that fall together, and `peak.c`, which tells memory. The environment variable PART divides the sizes of
the harmful input; the instructions at twice the bytes are judged of the whole alone.
"""
import functools
import os
import random
import re
import resource
import shutil
import subprocess
import sys
import tempfile
import threading

HERE = os.path.dirname(os.path.realpath(__file__))
STATEMENT = b"N.x := N.x + 1;\n"
ANSWERED, REFUSED, UNREAD, NO_MEMORY, DENIED = 0, 1, 3, 4, 5
# The most times that twice the bytes may take, and how long a run takes at least whose time says something.
RATIO, LEAST_SECONDS = 3.2, 0.05
# The most times that the instructions of twice the bytes may be, and by how much what is counted so is divided where it is large.
GREW, COUNTED_PART = 2.3, 32
PART = int(os.environ.get("PART", 1))


def many(count):
    """So many, or a part of them."""
    return count // PART


def row(name, faults, *cells):
    """Prints a row of a table, with what is wrong at its end, and returns how much that is."""
    print("|", " | ".join([name, *cells, "; ".join(faults) or "ok"]), "|", flush=True)
    return len(faults)


def head(*cells):
    print("| %s | |" % " | ".join(cells) + "\n" + "|---" * (len(cells) + 1) + "|")


def varint(number):
    groups = [number >> 7 * at & 127 for at in range(max(1, (number.bit_length() + 6) // 7))]
    return bytes([it | 128 for it in groups[:-1]] + groups[-1:])


def record(field, payload):
    return varint(8 * field + 2) + varint(len(payload)) + payload


def document(records):
    return record(2, record(1, b"a") + records)


def module(body):
    return b"MODULE M; VAR x: SET; BEGIN " + body + b" END M."


@functools.cache
def printed(*words):
    """What `colliding.c` prints."""
    with tempfile.TemporaryDirectory() as folder:
        subprocess.run(["cc", "-O2", "-o", f"{folder}/colliding", f"{HERE}/colliding.c"], check=True)
        return subprocess.run([f"{folder}/colliding", *words], check=True, stdout=subprocess.PIPE).stdout.split()


def colliding(count, bits, *front):
    """So many names that fall together in a table of names, whose numbers have so many bits, behind what else the table's keys have."""
    return printed(str(count), str(bits), *front)


def together(k, *front, bits=13, part=20_000):
    """Once or twice so many names that fall together in a table as large as it is with all of them."""
    count = many(part)
    return colliding(2 * count, bits, *front)[: k * count]


def variables(first, names):
    """A module that declares these names, each alone, behind the first ones."""
    return b"MODULE M; VAR " + first + b"".join(b"%s: SET; " % it for it in names) + b"END M."


def behind_a_base(names):
    """A module that uses these names, which no record has, behind a record with a base."""
    return b"MODULE M; TYPE B = RECORD END; R = RECORD (B) END; VAR v: R; BEGIN " + b"; ".join(b"v.%s := 1" % it for it in names) + b" END M."


def fields(shape, uses, length):
    """A module in which so many uses of fields stand behind so many bases."""
    return subprocess.run([sys.executable, f"{HERE}/fields.py", shape, str(uses), str(length)], check=True, stdout=subprocess.PIPE).stdout


def definition(records):
    """An occurrence that defines `s` at the eighth byte of the first line, with more records behind."""
    return record(2, record(1, b"\x00\x07\x08") + record(2, b"s") + b"\x18\x01" + records)


def write(path, text):
    """Writes what this function makes."""
    with open(path, "wb") as it:
        it.write(text())


def ended(words, folder, space=None):
    """The status, what is told, the processor seconds and the greatest resident size of a run by `peak`, in an address space of so many bytes."""

    def bind():
        resource.setrlimit(resource.RLIMIT_AS, (space, space))

    with tempfile.TemporaryFile() as told:
        ran = subprocess.Popen(["./peak", *words], cwd=folder, stdin=subprocess.DEVNULL, stdout=subprocess.DEVNULL, stderr=told, preexec_fn=bind if space else None)
        _, status, used = os.wait4(ran.pid, 0)
        ran.returncode = os.waitstatus_to_exitcode(status)
        told.seek(0)
        *lines, peak = told.read().splitlines(keepends=True)
        return ran.returncode, b"".join(lines), used.ru_utime + used.ru_stime, int(peak.split()[1]) * 1024


def is_documented(status, told):
    if status in (ANSWERED, DENIED):
        return not told
    return status in (REFUSED, UNREAD) and told.startswith(b"oscip: ") and told.count(b"\n") == 1 and told.endswith(b"\n")


def change(path, text, stop):
    """Makes the file shorter and longer until it is told to stop."""
    lengths = [0, 1, len(text) // 2, len(text) - 1, len(text), len(text) + 1, 2 * len(text)]
    at = 0
    while not stop.is_set():
        os.truncate(path, lengths[at % len(lengths)])
        at += 1
        with open(path, "r+b") as it:
            it.write(text[: lengths[at % len(lengths)]])


def changing(program, folder, runs):
    """Runs commands on files that change meanwhile, and returns how many runs ended in another way than they may."""
    imports = [b"M%04d M%04d" % (it, it + 1) for it in range(8_000)]
    texts = {
        "tree/M.Mod": b"MODULE M; IMPORT N; BEGIN " + 100_000 * STATEMENT + b" END M.",
        "net": b"".join(b"import %s 1\n" % it for it in imports),
        "report": b"cut M0000 M0009\nweight 1\n" + b"".join(b"flow %s 1\n" % it for it in imports) + b"end\n",
        "prices": b"".join(b"price %s 2\n" % it for it in imports),
        "scip": document(100_000 * record(2, b"")),
        "cut": b"cut M N\nweight 200000\nremove M N 200000\nend\n",
        "rules": b"".join(b"set S%d M\nforbid M N\n" % it for it in range(4_000)),
    }
    os.makedirs(f"{folder}/tree")
    for path, text in texts.items():
        with open(f"{folder}/{path}", "wb") as it:
            it.write(text)
    stop = threading.Event()
    writers = [threading.Thread(target=change, args=(f"{folder}/{path}", text, stop)) for path, text in texts.items()]
    for it in writers:
        it.start()
    commands = [
        ["index", "tree", "out", "--workers", "4"],
        ["unresolved", "tree"],
        ["cut", "tree", "M", "N"],
        ["crossings", "tree", "M", "N"],
        ["net", "tree"],
        ["why", "tree", "M", "N"],
        ["why-net", "net", "M0000", "M0009"],
        ["check", "tree", "cut"],
        ["dot", "tree", "cut"],
        ["rules", "tree", "rules"],
        ["cut-net", "net", "M0000", "M0009"],
        ["cut-net", "net", "M0000", "M0009", "--prices", "prices"],
        ["check-net", "net", "report"],
        ["dot-net", "net", "report", "--prices", "prices"],
        ["def", "scip", "a", "0", "0"],
        ["refs", "scip", "a", "0", "0"],
        ["symbol", "scip", "a", "0", "0"],
        ["symbols", "scip"],
    ]
    wrong, ends = 0, {}
    for at in range(runs):
        words = commands[at % len(commands)]
        status, told, _, _ = ended([program, *words], folder)
        ends[words[0], status] = ends.get((words[0], status), 0) + 1
        if not is_documented(status, told):
            wrong += 1
            print(f"{' '.join(words)}: status {status}, {told[:200]!r}")
    stop.set()
    for it in writers:
        it.join()
    print(f"files that change: {runs - wrong} of {runs} runs end as they may;", ", ".join(f"{name} {status}: {count}" for (name, status), count in sorted(ends.items())))
    return wrong


def lines_of(word, modules):
    """A line with this word for each pair of the first so many of 2,000 modules with 1,000 of them."""
    return b"".join(b"%s M%04d M%04d 1\n" % (word, it, other) for it in range(modules) for other in range(1_000))


# The file, the command, and for each input the most memory over the bytes and its text, of which there is once or twice as much.
HARMFUL = [
    (
        "index",
        ["refs", "index", "a", "0", "0"],
        {
            "empty occurrences": (2.5, lambda k: document(many(25_000_000) * k * record(2, b""))),
            "documents of one path": (2.5, lambda k: many(10_000_000) * k * record(2, b"\x0a\x01a")),
            "occurrences, each with a symbol of one byte": (2.5, lambda k: document(many(2_000_000) * k * record(2, b"\x12\x01s"))),
            "empty external symbols": (2.5, lambda k: many(2_000_000) * k * record(3, b"")),
        },
    ),
    (
        "index",
        ["symbols", "index"],
        {
            "definitions of one symbol": (2.5, lambda k: document(many(2_000_000) * k * definition(b""))),
            "documents of one definition": (2.5, lambda k: many(2_000_000) * k * record(2, b"\x0a\x01a" + definition(b""))),
            "definitions in a document with a path of 100 letters": (2.5, lambda k: record(2, record(1, 100 * b"p") + many(200_000) * k * definition(b""))),
            "definitions without a symbol": (2.5, lambda k: document(many(2_000_000) * k * record(2, b"\x0a\x03\x00\x00\x01\x18\x01"))),
        },
    ),
    (
        "m/M.Mod",
        ["index", "m", "--hex"],
        {
            "semicolons": (42, lambda k: module(many(4_000_000) * k * b";")),
            "`^` behind a name": (80, lambda k: module(b"x := x" + many(4_000_000) * k * b"^")),
            "`+ x`": (60, lambda k: module(b"x := x" + many(1_300_000) * k * b"+ x")),
            "`()` behind a name": (65, lambda k: module(b"x" + many(2_000_000) * k * b"()")),
            "import items of one name": (45, lambda k: b"MODULE M; IMPORT " + b", ".join([b"A"] * (many(1_300_000) * k)) + b"; END M."),
            "one name": (3, lambda k: module(many(4_000_000) * k * b"x")),
            "WHILE in one another": (8, lambda k: module(many(400_000) * k * b"WHILE x DO ")),
            "procedure types": (8, lambda k: b"MODULE M; TYPE T = " + many(200_000) * k * b"PROCEDURE (): " + b"T; END M."),
            "dimensions": (55, lambda k: b"MODULE M; TYPE T = ARRAY " + many(1_300_000) * k * b"1, " + b"1 OF SET; END M."),
            "names that fall together behind one that is declared twice": (20, lambda k: variables(b"a, a: SET; ", colliding(40_000, 13)[: 20_000 * k])),
            "names that fall together and that no record has": (40, lambda k: behind_a_base(colliding(40_000, 14, "8:0", "4:11")[: 20_000 * k])),
            "fields behind bases": (36, lambda k: fields("names", many(50_000) * k, many(20_000) * k)),
        },
    ),
    (
        "p/M.Mod",
        ["index", "p", "out", "--workers", "1", "--package", 2_000 * "p"],
        {"uses of a name in a package of 2,000 letters, which are put": (800, lambda k: module(8_000 * k * b"x := x;"))},
    ),
    (
        "net",
        ["cut-net", "net", "A", "B"],
        {
            "empty lines of a network": (2.5, lambda k: many(20_000_000) * k * b"\n"),
            "lines of one module": (2.5, lambda k: many(4_000_000) * k * b"module M\n"),
            "one name of a network": (4, lambda k: b"module " + many(40_000_000) * k * b"A"),
            "one weight": (2.5, lambda k: b"import A B " + many(40_000_000) * k * b"9"),
        },
    ),
    (
        "report",
        ["check-net", "modules.net", "report"],
        {
            "remove lines": (4, lambda k: b"cut M0000 M0001\nweight 1\n" + lines_of(b"remove", many(500) * k) + b"end\n"),
            "flow lines": (4, lambda k: b"cut M0000 M0001\nweight 1\n" + lines_of(b"flow", many(500) * k) + b"end\n"),
            "names of a `blocked` line": (4, lambda k: b"cut M0000 M0001\nblocked" + many(4_000_000) * k * b" M0000" + b"\nend\n"),
            "one weight of a report": (2.5, lambda k: b"cut M0000 M0001\nweight " + many(40_000_000) * k * b"9"),
        },
    ),
    (
        "prices",
        ["cut-net", "one.net", "A", "B", "--prices", "prices"],
        {
            "empty lines of prices": (2.5, lambda k: b"pin A B" + many(20_000_000) * k * b"\n"),
            "one price": (2.5, lambda k: b"price A B " + many(40_000_000) * k * b"9"),
        },
    ),
    (
        "rules",
        ["rules", "ruled", "rules"],
        {
            "empty lines of rules": (2.5, lambda k: many(20_000_000) * k * b"\n"),
            "comments": (2.5, lambda k: many(10_000_000) * k * b"#\n"),
            "`set` lines of one set": (12, lambda k: many(1_000_000) * k * b"set S M\n"),
            "`set` lines, each of a set of its own": (9, lambda k: b"".join(b"set S%07d M\n" % it for it in range(many(1_000_000) * k))),
            "`folder` lines of one set": (9, lambda k: many(1_000_000) * k * b"folder S d\n"),
            "`forbid` lines, which are too many": (2.5, lambda k: many(1_000_000) * k * b"forbid N M\n"),
            "one name of a set": (3, lambda k: b"set " + many(40_000_000) * k * b"S" + b" M"),
            "one folder of rules": (3, lambda k: b"folder S " + many(40_000_000) * k * b"d"),
        },
    ),
]


def apart(lines, repeat):
    """So many lines, each of an import of its own, but that the first import stands in the line of this number too."""
    seeded, met = random.Random(1), {}
    while len(met) < lines:
        met[tuple(sorted(seeded.sample(range(2_000), 2)))] = seeded.randrange(1, 50)
    found = [b"import Module%04d Module%04d %d\n" % (*ends, weight) for ends, weight in met.items()]
    return b"".join([*found[: repeat - 1], found[0], *found[repeat - 1 :]])


TWICE = b"import A B 1\nimport A B 1\n"
def without_a_slot():
    """Nine imports that choose one slot of a large network, of which the last finds none, and that one once more."""
    ends = [(0, 234), (24, 44), (251, 958), (445, 765), (469, 575), (493, 385), (517, 195), (711, 2), (938, 916), (938, 916)]
    return b"".join(b"module M%d\n" % it for it in range(1_000)) + b"".join(b"import M%d M%d 1\n" % it for it in ends)


def slot_of(name):
    """The slot of a name of seven letters among those that are remembered of a large network."""
    mix = int.from_bytes(name[:4], "little") * (31 << 32) + int.from_bytes(name[-4:], "little") + len(name)
    return ((mix * 0x9E3779B97F4A7C15 & 2**64 - 1) >> 32) * 32_768 >> 32


def by_turns():
    """A network of 8,192 modules whose names fall together, of which two that have one slot are named by turns."""
    names, slots = colliding(8_192, 13, "text"), {}
    for it in names[-2_500:]:
        slots.setdefault(slot_of(it), []).append(it)
    turns = b"".join(b"module %s\nmodule %s\n" % tuple(it[:2]) for it in slots.values() if len(it) > 1)
    return b"".join(b"module %s\n" % it for it in names) + turns * (4_000_000 // len(turns))


# The file, the command, and for each input its text and the most instructions that a byte may take, beyond those of an empty file.
COUNTED = [
    (
        "net",
        ["cut-net", "net", "A", "B"],
        {
            "one name behind a repeat": (lambda: TWICE + b"module " + 4_000_000 * b"a" + b"\n", 1.2),
            "one weight behind a repeat": (lambda: TWICE + b"import A C " + 4_000_000 * b"0" + b"\n", 1.2),
            "no line end behind a repeat": (lambda: TWICE + 4_000_000 * b"x", 1.2),
            "a repeat in line 516": (lambda: apart(2_058, 516), 21),
            "a repeat in line 2,061": (lambda: apart(8_237, 2_061), 18),
            "empty lines behind a repeat": (lambda: apart(33_000, 33_000) + 3_000_000 * b"\n", 13),
            "short lines behind a repeat behind a long one": (lambda: b"module " + 1_000_000 * b"a" + b"\n" + TWICE + 333_000 * b"module A\n", 11),
            "empty lines behind a repeat of an import without a slot": (lambda: without_a_slot() + 4_000_000 * b"\n", 3),
            "names that fall together, and two of one slot by turns": (by_turns, 40),
            "empty lines behind an import": (lambda: b"import A B 1\n" + 4_000_000 * b"\n", 27),
        },
    ),
]


def one(text):
    """A tree of one module."""
    return {"t/M.Mod": text}


def declared(names, form=b"VAR", each=b"%s: SET; "):
    """A module that declares these names."""
    return one(b"MODULE M; " + form + b" " + b"".join(each % it for it in names) + b"END M.")


def half_declared(names):
    """A module that declares every other one of these names, and uses the others."""
    return one(b"MODULE M; VAR " + b"".join(b"%s: SET; " % it for it in names[::2]) + b"BEGIN " + b"; ".join(names[1::2]) + b" END M.")


def hidden(names):
    """A module that declares these names, and one in an outer block behind an inner one."""
    return one(b"MODULE M; VAR " + b"".join(b"%s: SET; " % it for it in names) + b"PROCEDURE p; VAR a: SET; END p; PROCEDURE a; END a; END M.")


def locals_of(names):
    """A module of procedures, each of which declares one of these names."""
    return one(b"MODULE M; " + b"".join(b"PROCEDURE p%d; VAR %s: SET; BEGIN %s := {} END p%d; " % (at, it, it, at) for at, it in enumerate(names)) + b"END M.")


def fields_of(names):
    """A module with a record that has these fields, each of which is used."""
    return one(b"MODULE M; TYPE R = RECORD " + b"; ".join(b"%s: SET" % it for it in names) + b" END; VAR v: R; BEGIN " + b"; ".join(b"v.%s := {}" % it for it in names) + b" END M.")


def imported(names):
    """A module that imports these modules, which aren't in the tree."""
    return one(b"MODULE M; IMPORT " + b", ".join(names) + b"; END M.")


def constants(k):
    """A module of constants whose first tokens, by their numbers, begin in an eighth of a table as large as it is with twice as many."""
    gaps = printed("gaps", str(2 * many(32_768)), "13", "4", "4", "1")[: k * many(32_768)]
    return one(b"MODULE M; CONST " + b"".join(b"c%d = %s1; " % (at, int(gap) * b"~") for at, gap in enumerate(gaps)) + b"END M.")


def chained_types(k):
    """A module of types, each of which is a name of the last or a pointer to one, and a use of a field behind all: by their numbers they begin in an eighth of a table."""
    gaps = printed("gaps", str(2 * many(8_192)), "12", "5", "4", "2", "8:0")[: k * many(8_192)]
    types = b"".join(b"t%d = %st%d; " % (at + 1, int(gap) * b"POINTER TO ", at) for at, gap in enumerate(gaps))
    return one(b"MODULE M; TYPE t0 = RECORD END; %sVAR v: t%d; BEGIN v.q := 1 END M." % (types, len(gaps)))


def chained_records(k):
    """A module of records, each with the last as its base, and uses of a name that none has: by their numbers they begin in an eighth of a table."""
    gaps = printed("gaps", str(2 * many(8_192)), "12", "3", "8", "2", "8:0")[: k * many(8_192)]
    types = b"".join(b"t%d = %sRECORD (t%d) END; " % (at + 1, int(gap) * b"POINTER TO ", at) for at, gap in enumerate(gaps))
    return one(b"MODULE M; TYPE t0 = RECORD END; %sVAR v: t%d; BEGIN %s END M." % (types, len(gaps), b"; ".join(b"v.q%d := 1" % it for it in range(13))))


def outside(names):
    """A module that uses these names of a module which isn't in the tree, twice each."""
    return one(b"MODULE M; IMPORT X; BEGIN " + b"; ".join(b"X.%s := X.%s" % (it, it) for it in names) + b" END M.")


def inner_types(k):
    """A module of procedures, each of which declares a type whose number falls together with the procedure."""
    pool, count = 16_384, k * many(20_000)
    # behind MODULE M; VAR each name takes four tokens, and each procedure eleven
    numbers = printed("pairs", str(2 * many(20_000)), "13", str(4 * pool + 4), "11", str(pool))[:count]
    front = b"MODULE M; VAR " + b"".join(b"v%d: SET; " % it for it in range(pool))
    return one(front + b"".join(b"PROCEDURE p%d; TYPE v%s = SET; END p%d; " % (at, it, at) for at, it in enumerate(numbers)) + b"END M.")


def renamed(count):
    """A module with a chain of so many names of one record, with a variable and a use of its field at each."""
    types = b"".join(b"T%d = T%d; " % (it + 1, it) for it in range(count))
    variables_of = b"".join(b"x%d: T%d; " % (it, it) for it in range(count))
    return one(b"MODULE M; TYPE T0 = RECORD f: SET END; " + types + b"VAR " + variables_of + b"BEGIN " + b"; ".join(b"x%d.f := {}" % it for it in range(count)) + b" END M.")


def forward(count):
    """A module with so many pointers to records that are declared behind all of them, and a use of each."""
    pointers = b"".join(b"P%d = POINTER TO R%d; " % (it, it) for it in range(count))
    records = b"".join(b"R%d = RECORD n: P%d END; " % (it, (it + 1) % count) for it in range(count))
    return one(b"MODULE M; TYPE " + pointers + records + b"VAR p: P0; BEGIN p := p" + count * b".n" + b" END M.")


def inner_forward(count):
    """A module of procedures with a pointer each to a type that no block declares behind it."""
    return one(b"MODULE M; " + b"".join(b"PROCEDURE p%d; TYPE P = POINTER TO R; END p%d; " % (it, it) for it in range(count)) + b"END M.")


def aliases(count):
    """A module with so many aliases of one module that isn't in the tree, and a use of each."""
    return one(b"MODULE M; IMPORT " + b", ".join(b"a%d := X" % it for it in range(count)) + b"; BEGIN " + b"; ".join(b"a%d.f" % it for it in range(count)) + b" END M.")


def deep(count):
    """A module with procedures 150 deep, each with so many names, all of which are used in the innermost one."""
    names = [b"v%dx%d" % (level, it) for level in range(150) for it in range(count)]
    opened = b"".join(b"PROCEDURE p%d; VAR " % level + b"".join(b"v%dx%d: SET; " % (level, it) for it in range(count)) for level in range(150))
    closed = b"".join(b" END p%d;" % level for level in reversed(range(150)))
    return one(b"MODULE M; " + opened + b"BEGIN " + b"; ".join(b"%s := {}" % it for it in names) + closed + b" END M.")


def same_locals(count):
    """A module of so many procedures that declare the same name and use one of the outermost block."""
    return one(b"MODULE M; VAR g: SET; " + b"".join(b"PROCEDURE p%d; VAR i: SET; BEGIN i := g END p%d; " % (it, it) for it in range(count)) + b"END M.")


def long_names(count):
    """So many names of 200 letters that differ in the last ones."""
    return [b"%sx%d" % (190 * b"a", 10**8 + it) for it in range(count)]


def exporting(names):
    """A module that exports these names, and one that uses them."""
    return {
        "t/N.Mod": b"MODULE N; VAR " + b"".join(b"%s*: SET; " % it for it in names) + b"END N.",
        "t/M.Mod": b"MODULE M; IMPORT N; BEGIN " + b"; ".join(b"N.%s := {}" % it for it in names) + b" END M.",
    }


def small_modules(count, imported):
    """So many modules, each of which imports some that are told by its number."""
    files = {}
    for it in range(count):
        items = b", ".join(b"M%d" % other for other in imported(it))
        files[f"t/M{it}.Mod"] = b"MODULE M%d; %sVAR v*: SET; END M%d." % (it, b"IMPORT " + items + b"; " if items else b"", it)
    return files


def chain_of(names):
    """Modules of these names, each of which imports the one before it, by other paths."""
    each = [b"MODULE %s; %sVAR v*: SET; END %s." % (it, b"IMPORT %s; " % names[at - 1] if at else b"", it) for at, it in enumerate(names)]
    return {f"t/P{at:04}.Mod": text for at, text in enumerate(each)}


def renamed_modules(names, items):
    """Modules of these names, and one with so many import items of the last of them."""
    files = {f"t/A{at:04}.Mod": b"MODULE %s; END %s." % (it, it) for at, it in enumerate(names)}
    files["t/Z.Mod"] = b"MODULE Z; IMPORT %s; END Z." % b", ".join(b"b%d := %s" % (it, names[-1 - it % 32]) for it in range(items))
    return {**files, "t/M.Mod": b"MODULE M; END M.", "t/N.Mod": b"MODULE N; END N."}


def bases_of_one(modules, count, uses=1):
    """A module with so many records, each with the last as its base, and so many modules that use so many names which none has."""
    body = b"; ".join(b"v.g%d := {}" % it for it in range(uses))
    types = b"".join(b"R%d* = RECORD (R%d) END; " % (it, it - 1) for it in range(1, count))
    files = {f"t/M{it:04}.Mod": b"MODULE M%d; IMPORT A; VAR v: A.R%d; BEGIN %s END M%d." % (it, count - 1, body, it) for it in range(modules)}
    files["t/A.Mod"] = b"MODULE A; TYPE R0* = RECORD f*: SET END; " + types + b"END A."
    return files


def bases_through_modules(modules, form):
    """Modules, each with a type that is told by that of the module before it, and a use of a name at it."""
    files = {}
    for it in range(modules):
        import_of = b"IMPORT M%d; " % (it - 1) if it else b""
        told = form % (it - 1) if it else b"RECORD f*: SET END"
        files[f"t/M{it:04}.Mod"] = b"MODULE M%d; %sTYPE R* = %s; VAR v: R; BEGIN v.g := {} END M%d." % (it, import_of, told, it)
    return files


def beside_small(text):
    """A module beside 31 with nothing in them."""
    return {"t/A.Mod": text, **{f"t/N{it:02}.Mod": b"MODULE N%d; END N%d." % (it, it) for it in range(31)}}


def behind_long_names(size):
    """A module of so many letters, in half of which thirteen types name one another with long names, and many the last in the rest."""
    name = size // 104 * b"L"
    links = b"".join(b"%s%d* = %s%d; " % (name, it, name, it - 1) for it in range(1, 14))
    types = b"".join(b"t%d = s; " % it for it in range(size // 24))
    return b"MODULE A; TYPE %s0* = RECORD f*: SET END; %ss* = %s13; %sEND A." % (name, links, name, types)


def behind_deep_names(count, deep):
    """A module of so many names of a type that thirteen others lead to a record, each by so many pointers."""
    links = b"".join(b"a%d = %sa%d; " % (it, deep * b"POINTER TO ", it - 1) for it in range(1, 14))
    return b"MODULE A; TYPE a0 = RECORD END; %s%sEND A." % (links, b"".join(b"t%d = a13; " % it for it in range(count)))


def named_as_a_tree(count):
    """A module of types that name one another as a binary tree."""
    return b"MODULE A; TYPE R = RECORD END; t1 = R; %sEND A." % b"".join(b"t%x = t%x; " % (it, it // 2) for it in range(2, count))


def named_in_each(modules, count):
    """Modules, each of so many names of a type that twelve others lead to a record, each by three pointers."""
    links = b"".join(b"a%d = %sa%d; " % (it, 3 * b"POINTER TO ", it - 1) for it in range(1, 13))
    types = b"TYPE a0 = RECORD END; %s%s" % (links, b"".join(b"t%d = a12; " % it for it in range(count)))
    return {f"t/M{it:02}.Mod": b"MODULE M%d; %sEND M%d." % (it, types, it) for it in range(modules)}


def deep_between_bases(records, modules):
    """A module of records, between each and its base fourteen names of 190 pointers, and so many modules that use a name which none has."""
    types = [b"R0 = RECORD END; "]
    for it in range(1, records):
        names = [b"R%d" % (it - 1), *[b"a%dx%d" % (it, link) for link in range(14)]]
        types += [b"%s = %s%s; " % (name, 190 * b"POINTER TO ", last) for last, name in zip(names, names[1:])]
        types += [b"R%d = RECORD (%s) END; " % (it, names[-1])]
    files = {f"t/M{it:04}.Mod": b"MODULE M%d; IMPORT A; BEGIN A.v.g := 1 END M%d." % (it, it) for it in range(modules)}
    return {**files, "t/A.Mod": b"MODULE A; TYPE %sVAR v*: R%d; END A." % (b"".join(types), records - 1)}


def bushes(levels):
    """Records by their bases, from the lowest up: thirteen in a row, of which the last is the base of more than lie below it, and so on."""
    types, count = [b"R0 = RECORD (R1) END; "], 1
    for level in range(levels):
        row = 13 * level
        types += [b"R%d = RECORD (R%d) END; " % (it, it + 1) for it in range(row + 1, row + 13)]
        types += [b"S%dx%d = RECORD (S%d) END; " % (level, it, level) for it in range(count + 13)]
        types += [b"S%d = RECORD (R%d) END; " % (level, row + 13)]
        count = 2 * count + 27
    return b"R%d = RECORD END; " % (13 * levels), types


def uses_behind_bushes(levels, modules, uses):
    """A module of such records, and so many modules that use so many names which none has at the lowest."""
    top, types = bushes(levels)
    body = b"; ".join(b"A.v.g%d := 1" % it for it in range(uses))
    files = {f"t/M{it:04}.Mod": b"MODULE M%d; IMPORT A; BEGIN %s END M%d." % (it, body, it) for it in range(modules)}
    return {**files, "t/A.Mod": b"MODULE A; TYPE %s%sVAR v*: R0; END A." % (top, b"".join(reversed(types)))}


def beside_a_chain(modules, records):
    """Modules of so many records without a base, and one with a chain of seventeen."""
    types = b"".join(b"R%d* = RECORD f%d*: SET END; " % (it, it) for it in range(records))
    files = {f"t/M{it:02}.Mod": b"MODULE M%d; TYPE %sEND M%d." % (it, types, it) for it in range(modules)}
    chain = b"".join(b"R%d = RECORD (R%d) END; " % (it, it - 1) for it in range(1, 18))
    return {**files, "t/A.Mod": b"MODULE A; TYPE R0 = RECORD END; %sEND A." % chain}


def long_behind_bases(size):
    """A module with a use of a name of half so many letters behind a record for each fifty of them, each with the last as its base."""
    count = size // 50
    types = b"".join(b"R%d = RECORD (R%d) END; " % (it, it - 1) for it in range(1, count))
    return one(b"MODULE M; TYPE R0 = RECORD END; %sVAR v: R%d; BEGIN v.%s := {} END M." % (types, count - 1, size // 2 * b"a"))


def fields_of_a_long_type(size):
    """A module with a record type whose name has a fourth of so many letters, and one that uses a field of it for each eight."""
    name = size // 4 * b"L"
    uses = b"; ".join(size // 8 * [b"v.f := {}"])
    return {"t/X.Mod": b"MODULE X; TYPE %s* = RECORD f*: SET END; END X." % name, "t/U.Mod": b"MODULE U; IMPORT X; VAR v: X.%s; BEGIN %s END U." % (name, uses)}


def fields_through_a_long_module(size):
    """A module whose name has a fourth of so many letters, one with a variable of its type, and one that uses a field of that for each eight."""
    name = size // 4 * b"L"
    return {
        "t/L.Mod": b"MODULE %s; TYPE T* = RECORD f*: SET END; END %s." % (name, name),
        "t/X.Mod": b"MODULE X; IMPORT a := %s; VAR v*: a.T; END X." % name,
        "t/U.Mod": b"MODULE U; IMPORT X; BEGIN %s END U." % b"; ".join(size // 8 * [b"X.v.f := {}"]),
    }


def hubs(each, between):
    """A network of seven modules, each of which so many import, and, where there is something between, which import as many."""
    lines = [b"import a0 b%05d 7\n" % it for it in range(each)]
    lines += [b"import b%05d h%d 1\n" % (it, hub) for hub in range(7) for it in range(each)]
    lines += [b"import h%d y%05d 1\n" % (hub, it) for hub in range(7) for it in range(each)] if between else [b"import h%d zz9 %d\n" % (hub, each) for hub in range(7)]
    return {"t/net": b"".join(lines + [b"import y%05d zz9 7\n" % it for it in range(each)] * between)}


def chains(each):
    """A network of two chains of so many modules, each of the one importing the next and one of the other, which leads back to its begin."""
    lines = [b"import c%05d c%05d %d\nimport c%05d d%05d 2\nimport d%05d d%05d 1000000\n" % (it, it + 1, 1_000_000 - it, it, it, it + 1, it) for it in range(each)]
    return {"t/net": b"".join([b"import a0 c00000 1000000\n", *lines, b"import d00000 zz9 1000000\n"])}


def streams(each):
    """A network in which units come one behind the other to a chain of so many modules, through a chain of as many."""
    lines = [b"import c%05d c%05d 1000000000\nimport y%05d y%05d 1000000000\n" % (it, it + 1, it + 1, it) for it in range(each)]
    lines += [b"import h%d y%05d 1\n" % (feeder, it) for feeder in range(2) for it in range(each + 1)]
    ends = b"import c%05d zz9 1000000000\nimport y00000 c00000 1000000000\nimport a0 h0 %d\nimport a0 g0 %d\nimport g0 h1 %d\n" % (each, each, each, each)
    return {"t/net": b"".join([*lines, ends])}


def gates(long, units, count):
    """A network in which so many units go one by one down a long way, to and fro, until one of so many gates is full, six modules further each."""
    all_units, top, lines = count * (units + 2), long + 6 * count, []

    def add(module, imported, weight):
        lines.append(b"import %s %s %d\n" % (module, imported, weight))

    add(b"a0", b"b", 2 * all_units)
    for it in range(1, top):
        add(b"p%04d" % it, b"p%04d" % (it - 1), all_units)
    add(b"p0000", b"zz9", all_units)
    for it in range(units):
        add(b"b", b"d%04d" % it, 3 * all_units)
        add(b"d%04d" % it, b"w", all_units)
        add(b"d%04d" % it, b"e", 1)
    add(b"w", b"zz9", all_units)
    for it in range(1, count + 1):
        gate = b"g%04d" % it
        add(b"e", gate, units + 2)
        add(gate, b"p%04d" % (long + 6 * it - 2), units + 2)
        way = [b"b", b"r%04dx0" % it, b"r%04dx1" % it, gate]
        for module, imported in zip(way, way[1:]):
            add(module, imported, units + 2)
    return {"t/net": b"".join(lines)}


def linked(names, weight):
    """Import lines from each of these modules to the next."""
    return [b"import %s %s %d\n" % (*ends, weight) for ends in zip(names, names[1:])]


def trickle(each):
    """A network on whose weights, as they stand, a model raises so many modules by one label in each round: eleven of them send a unit to each module of a long way."""
    most, hubs = 10**10, [b"a0", b"h0", b"h1"]
    core, way = [b"x%05d" % it for it in range(each)], [*(b"p%05d" % it for it in reversed(range(each))), b"zz9"]
    lines = linked(hubs, most) + linked(core, most) + linked(way, most)
    lines += [b"import %s %s %d\n" % (hub, it, most) for hub in hubs[1:] for it in core]
    lines += [b"import %s b %d\n" % (it, most) for it in core]
    return {"t/net": b"".join(lines + [b"import %s %s 1\n" % (it, to) for it in [b"b", *core[:10]] for to in way[:-1]])}


def dying(pairs, units, delay):
    """A network in which units come one by one first, and then so many pairs of modules get more than may leave them, which a model that stays with labels finds one by one."""
    ways, each = range(7), 9
    way = [b"m%05d" % it for it in range(units + 1)]
    lines = [b"import a0 m00000 %d\n" % (4 * units)] + [b"import %s %s %d\n" % (*ends, units + 1 - it) for it, ends in enumerate(zip(way, way[1:]))]
    lines += [b"import m%05d y00000 1\n" % it for it in range(units)] + [b"import m%05d y%05d 1\n" % (units, units)]
    lines += linked([*(b"y%05d" % it for it in range(units + 1)), b"zz9"], units + 1)
    lines += linked([b"a0", *(b"d%05d" % it for it in range(delay + 1))], each * pairs)
    for it in range(pairs):
        lines += [b"import d%05d u%05d %d\nimport u%05d v%05d 99\nimport v%05d zz9 1\n" % (delay, it, each, it, it, it)]
        lines += [b"import v%05d w%d 1\n" % (it, to) for to in ways]
    return {"t/net": b"".join(lines + linked([*(b"w%d" % it for it in reversed(ways)), b"zz9"], pairs))}


def crossing(count):
    """Two modules, the first of which uses the second by so many aliases and in as many statements."""
    return {
        "t/N.Mod": b"MODULE N; VAR v*: SET; END N.",
        "t/M.Mod": b"MODULE M; IMPORT " + b", ".join(b"a%d := N" % it for it in range(count)) + b"; BEGIN " + b"; ".join(b"a%d.v := {}" % it for it in range(count)) + b" END M.",
    }


def near(modules, each):
    """So many modules, each of which imports so many of those before it, and one that imports none and that none imports."""
    return {**small_modules(modules, lambda it: range(max(0, it - each), it)), "t/Z.Mod": b"MODULE Z; END Z."}


def behind_hubs(each):
    """So many modules that import the first of fifteen, each of which imports the next, the last one Z, and as many others."""
    files = {"t/Z.Mod": b"MODULE Z; END Z."}
    imported = b", ".join(b"N%d" % it for it in range(each))
    for it in range(each):
        files[f"t/M{it}.Mod"] = b"MODULE M%d; IMPORT Y00; END M%d." % (it, it)
        files[f"t/N{it}.Mod"] = b"MODULE N%d; END N%d." % (it, it)
    for it in range(15):
        files[f"t/Y{it:02}.Mod"] = b"MODULE Y%02d; IMPORT %s, %s; END Y%02d." % (it, imported, b"Y%02d" % (it + 1) if it < 14 else b"Z", it)
    return files


def set_of(name, modules):
    """Lines by which these modules are in a set."""
    return b"".join(b"set %s %s\n" % (name, it) for it in modules)


def ruled(files, *lines):
    """A tree with rules for it."""
    return {**files, "rules": b"".join(lines)}


def numbered(modules):
    """The names of so many modules of a tree."""
    return [b"M%d" % it for it in range(modules)]


def in_folders(modules, deep):
    """So many modules without imports, in so many folders within one another."""
    return {f"t/{it % (deep + 1) * 'd/'}M{it}.Mod": b"MODULE M%d; END M%d." % (it, it) for it in range(modules)}


def in_long_paths(modules, deep=1):
    """So many modules that import Z, in folders within one another whose names have 200 letters each."""
    return {f"t/{deep * (199 * 'a' + 'c/')}M{it}.Mod": b"MODULE M%d; IMPORT Z; END M%d." % (it, it) for it in range(modules)}


def named(name):
    """A module of this name, which imports Z."""
    return {"t/M.Mod": b"MODULE %s; IMPORT Z; END %s." % (name, name)}


def folders_of(name, deep):
    """Lines by which the modules of each of these folders are in a set."""
    return b"".join(b"folder %s %s\n" % (name, b"/".join(levels * [b"d"])) for levels in range(1, deep + 1))


def occurrence(place, symbol):
    """An occurrence of a symbol of one byte at a column of a line."""
    return record(2, record(1, varint(place) + b"\x07\x08") + record(2, symbol))


def asked(behind):
    """An index whose first document defines `s`, with further records of it behind."""
    return {"index": document(definition(b"") + behind)}


# The rows of `docs/COMMANDS.md` that name inputs whose instructions grow by more than `GREW`.
CHAIN, LONG, NETWORKS = "modules in a chain of imports", "names of a fourth of the bytes", "networks over which flow goes forth and back"

# The command, its status, and for each input what is written, of which there is once or twice as much, and the most times that
# the instructions may grow, where that isn't `GREW`, with the row that names it where that is more.
GROWN = [
    (
        ["unresolved", "t"],
        ANSWERED,
        {
            "uses of 20,000 fields behind 8,000 bases": (lambda k: one(fields("names", many(20_000) * k, many(8_000) * k)), 2.2),
            "uses of 20,000 names that no record has, at 8,000 bases that come back": (lambda k: one(fields("round", many(20_000) * k, many(8_000) * k)), 2.2),
            "uses of one field behind 8,000 renamings": (lambda k: one(fields("renamings", many(8_000) * k, many(8_000) * k)),),
            "uses of one field behind 8,000 pointers": (lambda k: one(fields("pointers", many(8_000) * k, many(8_000) * k)),),
            "uses of one field behind 8,000 bases by renamings": (lambda k: one(fields("both", many(8_000) * k, many(8_000) * k)),),
            "uses of one field in each of 8,000 records": (lambda k: one(fields("records", many(8_000) * k, many(8_000) * k)),),
            "uses of one field by each of 20,000 names of its record": (lambda k: renamed(many(20_000) * k),),
            "names of variables that fall together": (lambda k: declared(together(k)),),
            "names of constants that fall together": (lambda k: declared(together(k), b"CONST", b"%s = 1; "),),
            "names of variables and of uses that fall together": (lambda k: half_declared(together(k)),),
            "constants whose first tokens begin in an eighth of a table": (constants,),
            "names of local variables that fall together": (lambda k: locals_of(together(k, bits=14)),),
            "names that fall together with their block, of a module that hides one": (lambda k: hidden(together(k, "8:0", "4:0")),),
            "names of fields that fall together with their record": (lambda k: fields_of(together(k, "4:6")),),
            "names that fall together with the record in which they are sought": (lambda k: one(behind_a_base(together(k, "8:0", "4:11", bits=14))),),
            "types that fall together with their procedures": (inner_types,),
            "types that begin in an eighth of a table, each a name of the last": (chained_types,),
            "records that begin in an eighth of a table, each with the last as its base": (chained_records,),
            "pointers to records that are declared behind all": (lambda k: forward(many(20_000) * k),),
            "pointers in procedures to what no block declares": (lambda k: inner_forward(many(20_000) * k),),
            "aliases of a module that isn't in the tree": (lambda k: aliases(many(20_000) * k),),
            "names 150 procedures deep": (lambda k: deep(many(150) * k),),
            "one name in 20,000 procedures": (lambda k: same_locals(many(20_000) * k),),
            "names of 200 letters": (lambda k: declared(long_names(many(5_000) * k)),),
            "modules that declare a few names": (lambda k: small_modules(many(2_048) * k, lambda it: ()),),
            "modules that declare a few names, each of which imports the one before it": (lambda k: small_modules(many(2_048) * k, lambda it: (it - 1,) if it else ()), 3.4, CHAIN),
            "modules whose names fall together, each of which imports the one before it": (lambda k: chain_of(together(k, "each", part=1_024)), 3.8, CHAIN),
            "modules whose names fall, each of which imports the one before it": (lambda k: chain_of([b"M%d" % (9_999 - it) for it in range(many(2_048) * k)]), 3.8, CHAIN),
            "uses of 200 modules behind 2,000 bases of one": (lambda k: bases_of_one(many(100) * k, many(1_000) * k),),
            "nine uses of each of 200 modules behind 2,000 bases of one": (lambda k: bases_of_one(many(100) * k, many(1_000) * k, 9),),
            "records through 512 modules, each with the last as its base": (lambda k: bases_through_modules(many(256) * k, b"RECORD (M%d.R) END"), 2.7, CHAIN),
            "names of one record through 512 modules": (lambda k: bases_through_modules(many(256) * k, b"M%d.R"), 2.7, CHAIN),
            "uses of 30 modules behind 2,000 bases of one": (lambda k: bases_of_one(15 * k, many(1_000) * k),),
            "names of types behind twelve of three pointers in each of 32 modules": (lambda k: named_in_each(16 * k, many(200)),),
            "types that name one behind thirteen of long names, in 32 modules": (lambda k: beside_small(behind_long_names(many(64_000) * k)),),
            "types that name one behind thirteen of up to 190 pointers, in 32 modules": (lambda k: beside_small(behind_deep_names(many(2_000) * k, many(95) * k)),),
            "types that name one another as a tree, in 32 modules": (lambda k: beside_small(named_as_a_tree(many(17_000) * k)),),
            "uses of 1,000 modules behind 64 bases, each by fourteen names of 190 pointers": (lambda k: deep_between_bases(many(32) * k, many(500) * k),),
            "uses of 64 modules behind records of which none has a long run of bases": (lambda k: uses_behind_bushes(6 + k, many(32) * k, 320),),
            "records without a base in 64 modules, and a chain of seventeen bases": (lambda k: beside_a_chain(64, many(250) * k),),
            "190 parentheses in one another, again and again": (lambda k: one(b"MODULE M; BEGIN " + b"; ".join(many(400) * k * [190 * b"h(" + b"x" + 190 * b")"]) + b" END M."),),
            "a name of 50,000 letters behind 2,000 bases": (lambda k: long_behind_bases(many(100_000) * k),),
            "fields of a type of another module with a name of 10,000 letters": (lambda k: fields_of_a_long_type(many(40_000) * k), 3.9, LONG),
            "fields of a type of a module with a name of 40,000 letters": (lambda k: fields_through_a_long_module(many(160_000) * k), 3.9, LONG),
        },
    ),
    (
        ["unresolved", "t"],
        REFUSED,
        {
            "names that fall together before one that is declared twice": (lambda k: declared(together(k) + [b"a", b"a"]),),
            "modules outside of the tree that fall together, which are too many": (lambda k: imported(together(k, "text")),),
            "a wrong name after END": (lambda k: one(b"MODULE M; VAR x: SET; BEGIN " + many(100_000) * k * b"x := x + {1}; " + b"END N."),),
            "a nest that is too deep behind many that aren't": (lambda k: one(b"MODULE M; BEGIN " + b"; ".join(many(400) * k * [190 * b"h(" + b"x" + 190 * b")"]) + b"; " + 250 * b"h(" + b" END M."),),
        },
    ),
    (
        ["index", "t", "out", "--workers", "1"],
        ANSWERED,
        {
            "names that fall together with a module that isn't in the tree": (lambda k: outside(together(k, "each", "4:0")),),
            "names that fall together with a module that isn't in the tree, as symbols": (lambda k: outside(together(k, "each", "4:0", "8:1")),),
            "names of 200 letters of a module that isn't in the tree": (lambda k: outside(long_names(many(2_500) * k)),),
            "names of 200 letters of a module of the tree": (lambda k: exporting(long_names(many(2_500) * k)),),
            "names of a module of the tree that fall together": (lambda k: exporting(together(k)),),
            "modules of a few names": (lambda k: small_modules(many(2_048) * k, lambda it: ()),),
            "modules of a few names, each of which imports the one before it": (lambda k: small_modules(many(2_048) * k, lambda it: (it - 1,) if it else ()), 3.1, CHAIN),
            "nine uses of each of 200 modules behind 2,000 bases of one, indexed": (lambda k: bases_of_one(many(100) * k, many(1_000) * k, 9),),
            "records through 512 modules, each with the last as its base, indexed": (lambda k: bases_through_modules(many(256) * k, b"RECORD (M%d.R) END"), 2.7, CHAIN),
        },
    ),
    (
        ["crossings", "t", "M", "N"],
        ANSWERED,
        {
            "aliases of one module": (lambda k: crossing(many(20_000) * k),),
            "names that fall together beside a crossing": (lambda k: exporting(together(k)),),
        },
    ),
    (
        ["cut", "t", "M", "N"],
        ANSWERED,
        {
            "aliases of one module of a cut": (lambda k: crossing(many(20_000) * k),),
            "names that fall together beside a cut": (lambda k: exporting(together(k)),),
            "modules whose names fall together, of which one imports the last by many aliases": (lambda k: renamed_modules(together(k, "text", part=2_000), many(25_000) * k),),
        },
    ),
    (
        ["cut-net", "t/net", "a0", "zz9"],
        ANSWERED,
        {
            "seven modules that 4,000 import, and that import 4,000": (lambda k: hubs(many(2_000) * k, 1),),
            "seven modules that 8,000 import": (lambda k: hubs(many(4_000) * k, 0),),
            "two chains of 4,000, of which one leads back": (lambda k: chains(many(2_000) * k), 3.6, NETWORKS),
            "units one behind the other through two chains of 2,000": (lambda k: streams(many(1_000) * k), 3.1, NETWORKS),
            "1,000 modules, eleven of which send a unit to each module of a long way": (lambda k: trickle(many(500) * k),),
            "1,400 pairs of modules that lead nowhere, behind units one by one": (lambda k: dying(many(700) * k, many(200) * k, many(300) * k), 2.5, NETWORKS),
            "200 units one behind the other down a way of 200, to and fro, for each of 32 gates": (lambda k: gates(many(100) * k, many(100) * k, many(16) * k), 3.4, NETWORKS),
        },
    ),
    (
        ["rules", "t", "rules"],
        ANSWERED,
        {
            "rules over 8,056 imports": (lambda k: ruled(near(512, 16), many(2_048) * k * b"forbid Z M0\n"),),
            "rules from all modules": (lambda k: ruled(near(512, 2), set_of(b"A", numbered(512)), many(2_048) * k * b"forbid A Z\n"),),
            "rules between two sets of all modules": (lambda k: ruled(in_folders(512, 0), set_of(b"A", numbered(512)), set_of(b"B", numbered(512)), many(2_048) * k * b"forbid A B\n"),),
            "rules for modules in 32 folders within one another": (lambda k: ruled(in_folders(512, 32), folders_of(b"A", 32), many(1_024) * k * b"forbid A A\n"),),
            "modules in 32 folders within one another, and a rule": (lambda k: ruled(in_folders(many(2_000) * k, 32), folders_of(b"A", 32), b"forbid A A\n"),),
            "modules of a set, each of which imports the one before it": (lambda k: ruled(near(many(2_000) * k, 1), set_of(b"A", numbered(many(2_000) * k)), b"forbid A Z\n"),),
            "imports that are allowed": (lambda k: ruled(near(many(2_000) * k, 1), b"".join(b"allow M%d M%d\n" % (it + 1, it) for it in range(many(2_000) * k - 1)), b"forbid M1 M0\n"),),
            "sets of one module, and a rule": (lambda k: ruled(near(1, 0), b"".join(b"set S%d Z\n" % it for it in range(many(100_000) * k)), b"forbid S0 S1\n"),),
            "sets whose names fall together": (lambda k: ruled(near(1, 0), *[b"set %s Z\n" % it for it in together(k)], b"forbid M0 Z\n"),),
            "sets whose names of 200 letters differ in the last ones": (lambda k: ruled(near(1, 0), *[b"set %s Z\n" % it for it in long_names(many(5_000) * k)], b"forbid M0 Z\n"),),
            "a pattern of many stars": (lambda k: ruled(near(512, 1), b"named S M%s\nforbid Z S\n" % (many(500_000) * k * b"*")),),
            "a pattern of many pieces, and a name that has them": (lambda k: ruled(named(many(200_000) * k * b"a"), b"named S %s*\nforbid Z S\n" % (many(100_000) * k * b"*a")),),
            "a pattern of half a name that is nearly in its first half": (lambda k: ruled(named(many(200_000) * k * b"a" + b"b"), b"named S *%sb\nforbid Z S\n" % (many(100_000) * k * b"a")),),
            "patterns, for 512 names": (lambda k: ruled(near(512, 1), b"".join(b"named S *M*%d*\n" % (it % 512) for it in range(many(2_000) * k)), b"forbid Z S\n"),),
            "lines with a comment": (lambda k: ruled(near(1, 0), b"set S Z\n", many(100_000) * k * b"set S Z # a comment\n"),),
            "sets of a folder each, from the last name to the first": (lambda k: ruled(in_folders(64, 32), *[b"folder S%06d %s\n" % (999_999 - it, b"d/" * (it % 31) + b"d") for it in range(many(50_000) * k)]),),
        },
    ),
    (
        ["rules", "t", "rules"],
        REFUSED,
        {
            "a set of no module behind many lines": (lambda k: ruled(near(1, 0), many(100_000) * k * b"set A Z\n", b"set A Nope\n"),),
            "rules that are too many": (lambda k: ruled(near(2, 1), many(20_000) * k * b"forbid Z M0\n"),),
        },
    ),
    (
        ["rules", "t", "rules"],
        DENIED,
        {
            "imports that are allowed and aren't there": (lambda k: ruled(near(1, 0), b"".join(b"allow M%d N\n" % it for it in range(many(50_000) * k))),),
            "lines of imports that aren't allowed, each with a path of 200 letters": (lambda k: ruled(in_long_paths(many(1_000) * k), set_of(b"A", numbered(many(1_000) * k)), b"forbid-import A Z\n"),),
            "modules that may import nothing, by 2,048 rules": (lambda k: ruled(near(64, 1), set_of(b"A", numbered(64)), b"set B M0\n", many(1_024) * k * b"forbid-import A B\n"),),
            "modules of a set behind fifteen, each of which imports as many": (lambda k: ruled(behind_hubs(many(1_000) * k), set_of(b"A", numbered(many(1_000) * k)), b"forbid A Z\n"),),
        },
    ),
    (
        ["modules", "t", "--exclude", "*a*a*a*a*b", "--exclude", "*/*a*b*/*", "--exclude", 100 * "*a"],
        ANSWERED,
        {
            "paths of 2,000 letters, and three patterns of many stars": (lambda k: in_long_paths(many(500) * k, 8),),
        },
    ),
    (
        ["modules", "t", *[word for it in range(500) for word in ("--exclude", f"*d/*{it}*.txt")]],
        ANSWERED,
        {
            "paths in 32 folders, and 500 patterns": (lambda k: in_folders(many(1_000) * k, 32),),
        },
    ),
    (
        ["refs", "index", "a", "0", "7"],
        ANSWERED,
        {
            "one symbol with many occurrences": (lambda k: asked(b"".join(occurrence(it, b"s") for it in range(many(100_000) * k))),),
            "occurrences of other symbols": (lambda k: asked(b"".join(occurrence(it, b"t") for it in range(many(100_000) * k))),),
            "a range of many numbers": (lambda k: asked(record(2, record(1, many(1_000_000) * k * b"\x01") + record(2, b"s"))),),
            "symbols of 1,000 letters that differ in the last ones": (lambda k: asked(b"".join(occurrence(it, b"%s%d" % (1_000 * b"s", it)) for it in range(many(2_000) * k))),),
            "documents whose paths differ in the last letters": (lambda k: {"index": document(definition(b"")) + b"".join(record(2, record(1, b"%s%d" % (200 * b"a", it)) + definition(b"")) for it in range(many(20_000) * k))},),
        },
    ),
    (
        ["symbols", "index"],
        ANSWERED,
        {
            "definitions of one symbol": (lambda k: asked(many(100_000) * k * definition(b"")),),
            "occurrences of other symbols that define none": (lambda k: asked(b"".join(occurrence(it, b"t") for it in range(many(100_000) * k))),),
            "symbols of control characters": (lambda k: asked(b"".join(record(2, b"\x0a\x03\x00\x00\x01\x18\x01" + record(2, 1_000 * b"\x01")) for _ in range(many(1_000) * k))),),
            "documents of paths of 200 letters": (lambda k: {"index": b"".join(record(2, record(1, b"%s%d" % (200 * b"a", it)) + definition(b"")) for it in range(many(20_000) * k))},),
        },
    ),
    (
        ["symbols", "index", "a"],
        ANSWERED,
        {
            "documents whose paths differ in the last letters": (lambda k: {"index": document(definition(b"")) + b"".join(record(2, record(1, b"%s%d" % (200 * b"a", it)) + definition(b"")) for it in range(many(20_000) * k))},),
            "definitions of a local symbol": (lambda k: asked(many(100_000) * k * record(2, b"\x0a\x03\x00\x00\x01\x12\x07local 0\x18\x01")),),
        },
    ),
    (
        ["refs", "index", "--symbol", "s"],
        ANSWERED,
        {
            "one symbol with many occurrences, by its text": (lambda k: asked(b"".join(occurrence(it, b"s") for it in range(many(100_000) * k))),),
        },
    ),
    (
        ["def", "index", "a", "0", "7"],
        ANSWERED,
        {
            "one symbol with many definitions": (lambda k: asked(many(100_000) * k * definition(b"")),),
        },
    ),
]


# By these the C library sets and copies bytes by no string instruction, of which valgrind counts each byte as one: those that
# clear rows of marks would be counted so from rows of some 2,000 bytes on, and not below.
PLAIN = {"GLIBC_TUNABLES": "glibc.cpu.x86_rep_stosb_threshold=1000000000:glibc.cpu.x86_rep_movsb_threshold=1000000000"}


def instructions(words, folder, settings={}):
    """The instructions of a run, by valgrind, and its status."""
    ran = subprocess.run(["valgrind", "--tool=callgrind", "--callgrind-out-file=/dev/null", *words], cwd=folder, env={**os.environ, **settings}, stdin=subprocess.DEVNULL, capture_output=True)
    return int(re.search(rb"Collected : (\d+)", ran.stderr)[1]), ran.returncode


def times_of(none, once, twice):
    """How many times the instructions at twice the bytes are those at once, both without those of the help, where there are more than of it."""
    begins = none if once > 2 * none else 0
    return (twice - begins) / (once - begins)


def counted(program, folder):
    """Counts the instructions of input that was made to do harm, and returns how much is wrong."""
    if not shutil.which("valgrind"):
        print("without valgrind no instructions are counted")
        return 0
    wrong = 0
    head("Input", "Bytes", "Instructions a byte", "at most")
    for path, words, inputs in COUNTED:
        at = f"{folder}/{path}"
        open(at, "wb").close()
        none, _ = instructions([program, *words], folder)
        for name, (text, most) in inputs.items():
            write(at, text)
            size = os.path.getsize(at)
            each = (instructions([program, *words], folder)[0] - none) / size
            wrong += row(name, ["too many instructions"] if each > most else [], f"{size:,}", f"{each:.1f}", str(most))
    return wrong


def written(folder, files):
    """Writes a tree or an index in place of what was there, and returns its bytes."""
    shutil.rmtree(f"{folder}/t", ignore_errors=True)
    os.makedirs(f"{folder}/t")
    for path, text in files.items():
        os.makedirs(os.path.dirname(f"{folder}/{path}"), exist_ok=True)
        write(f"{folder}/{path}", lambda: text)
    return sum(map(len, files.values()))


def growth(program, words, folder, wanted, files):
    """The bytes of twice as much, the instructions of it over those of once as much, both beyond those of the help, and how often a run ended in another way than it should."""
    none, _ = instructions([program, "--help"], folder, PLAIN)
    took, wrong, size = [], 0, 0
    for times in (1, 2):
        size = written(folder, files(times))
        counted_now, status = instructions([program, *words], folder, PLAIN)
        took.append(counted_now)
        wrong += status != wanted
    return size, times_of(none, *took), wrong


def grown(program, folder):
    """Counts the instructions at twice the bytes over those at once, and returns how much is wrong."""
    if not shutil.which("valgrind"):
        return 0
    wrong = 0
    head("Command", "Input", "Bytes", "Instructions at twice the bytes", "at most")
    named_rows = open(f"{HERE}/../docs/COMMANDS.md", encoding="utf-8").read()
    for words, wanted, inputs in GROWN:
        for name, (files, *bound_of) in inputs.items():
            most, *named = bound_of or [GREW]
            size, ratio, others = growth(program, words, folder, wanted, files)
            # a part is too small for the bounds, and for what is refused as too many
            faults = ["another status"] if others and PART == 1 else []
            faults += ["too many instructions"] if ratio > most and PART == 1 else []
            faults += ["docs/COMMANDS.md doesn't name it"] if most > GREW and not any(f"| {it}" in named_rows for it in named) else []
            wrong += row(f"`{words[0]}`", faults, name, f"{size:,}", f"{ratio:.2f}", ": ".join([str(most), *named]))
    return wrong


def nested(opening, levels, closing, behind):
    """A module with so many brackets open, each of which is closed behind a dot but the innermost, and what stands behind them."""
    return b"MODULE M; BEGIN " + levels * opening + b"x" + closing + (levels - 1) * (b"." + closing) + behind + b" END M."


# The text of a module, the address space, the most processor seconds, the status and what is told. `unresolved` reads it.
BOUND = {
    "a million `^` behind 190 parentheses and a fault": (lambda: nested(b"h(", 190, b")", 1_000_000 * b"^"), 200_000 << 10, 5, REFUSED, b"oscip: M.Mod:0:399: Syntax\n"),
    "the same behind brackets": (lambda: nested(b"h[", 190, b"]", 1_000_000 * b"^"), 200_000 << 10, 5, REFUSED, b"oscip: M.Mod:0:399: Syntax\n"),
    "the same behind 250 parentheses, which are too many": (lambda: nested(b"h(", 250, b")", 1_000_000 * b"^"), 200_000 << 10, 5, REFUSED, b"oscip: M.Mod:0:416: TooDeep\n"),
    "names whose rows are refused memory": (lambda: b"MODULE M; BEGIN " + 5_000_000 * b"x;" + b" END M.", 300_000 << 10, 5, NO_MEMORY, b"oscip: Memory\n"),
}


def bound(program, folder):
    """Tells seconds of runs in an address space that is just enough, and returns how much is wrong."""
    wrong = 0
    os.makedirs(f"{folder}/bound")
    head("Input", "Bytes", "Address space", "Seconds", "at most")
    for name, (text, space, most, status, line) in BOUND.items():
        write(f"{folder}/bound/M.Mod", text)
        ends = ended([program, "unresolved", "bound"], folder, space)
        faults = [f"status {ends[0]}, {ends[1][:200]!r}, in place of {status}, {line!r}"] if ends[:2] != (status, line) else []
        faults += ["too many seconds"] if ends[2] > most else []
        wrong += row(name, faults, f"{os.path.getsize(f'{folder}/bound/M.Mod'):,}", f"{space:,}", f"{ends[2]:.2f}", str(most))
    return wrong


def walked(program, folder):
    """Tells seconds of walks through folders, from each of which two links lead to the next, with as many names as there may be along the links, and with one more. Returns how much is wrong."""
    wrong, most = 0, 60
    head("Input", "Names", "Seconds", "at most")
    for more, status, line in ((2, ANSWERED, b""), (3, UNREAD, b"oscip: cannot read links3/0\n")):
        # two links on each of 19 levels, 2^20 - 2 names in all
        for level in range(20):
            os.makedirs(f"{folder}/links{more}/{level}")
        for level in range(19):
            for name in "ab":
                os.symlink(f"../{level + 1}", f"{folder}/links{more}/{level}/{name}")
        for name in range(more):
            os.mkdir(f"{folder}/links{more}/0/{name}")
        ends = ended([program, "unresolved", f"links{more}/0"], folder)
        faults = [f"status {ends[0]}, {ends[1][:200]!r}"] if ends[:2] != (status, line) else []
        faults += ["too many seconds"] if ends[2] > most else []
        wrong += row("folders with two links each to the next", faults, f"{(1 << 20) - 2 + more:,}", f"{ends[2]:.2f}", str(most))
    return wrong + returned(program, folder)


def returned(program, folder):
    """Tells the memory of a walk through a folder of long names with a link to itself, and returns how much is wrong."""
    most, names = 400 << 20, many(40_000)
    os.makedirs(f"{folder}/again")
    os.symlink(".", f"{folder}/again/a")
    for name in range(names):
        open(f"{folder}/again/b{name:0199}", "wb").close()
    head("Input", "Names", "Bytes of memory", "at most")
    ends = ended([program, "unresolved", "again"], folder)
    faults = [f"status {ends[0]}, {ends[1][:200]!r}"] if ends[0] != UNREAD else []
    faults += ["too much memory"] if ends[3] > most else []
    return row("a folder with a link to itself", faults, f"{names:,}", f"{ends[3]:,}", f"{most:,}")


def long_named():
    """A tree in which a module between two others has a name of a million letters, and imports a thousand modules."""
    name, imported = many(1_000_000) * b"L", [b"A%d" % it for it in range(1_000)]
    files = {b"A%d" % it: b"MODULE A%d; IMPORT B; PROCEDURE p*; END p; BEGIN B.p END A%d." % (it, it) for it in range(1_000)}
    files[b"B"] = b"MODULE B; PROCEDURE p*; END p; END B."
    files[b"L"] = b"MODULE %s; IMPORT %s; PROCEDURE q*; END q; BEGIN %s END %s." % (name, b", ".join(imported), b"; ".join(b"%s.p" % it for it in imported), name)
    files[b"S"] = b"MODULE S; IMPORT l := %s; BEGIN %s END S." % (name, b"; ".join(1_000 * [b"l.q"]))
    return {f"t/{it.decode()}.Mod": text for it, text in files.items()}


# A tree, the command, its status, and the most memory over the bytes. The report has a thousand lines of the long name, each line of the
# next begins with the path, 4,096 rules tell a chain of 2,000 modules each, and one 2,000 chains of 1,000 modules on average.
PIECES = {
    "a name of a million letters in a report": (long_named, ["cut", "t", "S", "B"], ANSWERED, 10),
    "a path of 2,800 letters": (lambda: {"t/" + 14 * (200 * "d" + "/") + "M.Mod": b"MODULE M; BEGIN " + many(1_000_000) * b"x;" + b" END M."}, ["unresolved", "t"], ANSWERED, 110),
    "a chain of 2,000 modules by 4,096 rules": (lambda: ruled(near(2_000, 1), 4_096 * b"forbid M1999 M0\n"), ["rules", "t", "rules"], DENIED, 40),
    "chains of a set of 2,000 modules": (lambda: ruled(near(2_000, 1), set_of(b"A", numbered(2_000)), b"forbid A M0\n"), ["rules", "t", "rules"], DENIED, 40),
    "4,096 rules between sets of 4,095 modules over 65,384 imports": (
        lambda: ruled(near(4_095, 16), set_of(b"A", numbered(4_095)), 2_048 * b"forbid Z A\nforbid A Z\n"),
        ["rules", "t", "rules"],
        ANSWERED,
        40,
    ),
    "4,096 rules for 4,096 modules in 32 folders within one another": (
        lambda: ruled(in_folders(4_096, 32), folders_of(b"A", 32), 4_096 * b"forbid A A\n"),
        ["rules", "t", "rules"],
        ANSWERED,
        50,
    ),
}


def in_pieces(program, folder):
    """Tells the memory of texts that are much longer than their input, and returns how much is wrong."""
    wrong, alone = 0, ended([program, "--help"], folder)[3]
    head("Input", "Bytes", "Memory", "at most")
    for name, (files, words, status, most) in PIECES.items():
        size = written(folder, files())
        ends = ended([program, *words], folder)
        memory = (ends[3] - alone) / size
        faults = [f"status {ends[0]}, {ends[1][:200]!r}"] if ends[0] != status else []
        faults += ["too much memory"] if memory > most else []
        wrong += row(name, faults, f"{size:,}", f"{memory:.1f}", str(most))
    return wrong


def part_grown(program, words, folder, path, text):
    """The instructions at twice the bytes over those at once, of a part of the input, and how often a run ended in another way than it may."""
    global PART
    PART *= COUNTED_PART
    none, took, wrong = instructions([program, "--help"], folder)[0], [], 0
    for times in (1, 2):
        write(f"{folder}/{path}", lambda: text(times))
        counted_now, status = instructions([program, *words], folder)
        took.append(counted_now)
        wrong += status not in (ANSWERED, REFUSED, DENIED)
    PART //= COUNTED_PART
    return times_of(none, *took), wrong


def harmful(program, folder):
    """Tells memory and times of input that was made to do harm, and of a part of it the instructions, and returns how much is wrong."""
    fixed = {"one.net": b"import A B 1\n", "modules.net": b"".join(b"module M%04d\n" % it for it in range(2_000))}
    fixed |= {"ruled/M.Mod": b"MODULE M; IMPORT N; END M.", "ruled/d/N.Mod": b"MODULE N; END N."}
    os.makedirs(f"{folder}/ruled/d")
    for name, text in fixed.items():
        with open(f"{folder}/{name}", "wb") as it:
            it.write(text)
    wrong, alone = 0, ended([program, "--help"], folder)[3]
    head("Input", "Bytes", "Memory", "at most", "Seconds", "Time at twice the bytes", "at most", "Instructions of a part", "at most")
    for path, words, inputs in HARMFUL:
        at = f"{folder}/{path}"
        os.makedirs(os.path.dirname(at), exist_ok=True)
        for name, (most, text) in inputs.items():
            took, faults = [], []
            for times in (1, 2):
                write(at, lambda: text(times))
                ends = [ended([program, *words], folder) for _ in range(3)]
                took.append(min(it[2] for it in ends))
                faults += [f"status {it[0]}, {it[1][:200]!r}" for it in ends if not is_documented(*it[:2])]
            size, ratio = os.path.getsize(at), took[1] / max(took[0], 0.001)
            memory = (max(it[3] for it in ends) - alone) / size
            faults += ["too much memory"] if memory > most else []
            faults += ["too long at twice the bytes"] if ratio > RATIO and took[1] > LEAST_SECONDS else []
            counted_so, others = part_grown(program, words, folder, path, text) if shutil.which("valgrind") and PART == 1 else (0, 0)
            faults += ["another status of a part"] if others else []
            faults += ["too many instructions"] if counted_so > GREW else []
            wrong += row(name, faults, f"{size:,}", f"{memory:.1f}", str(most), f"{took[1]:.2f}", f"{ratio:.1f}", str(RATIO), f"{counted_so:.2f}", str(GREW))
    return wrong


TEN = 9 * b"\xff" + b"\x01"
# Indexes that are asked for the definitions of `s`: one of numbers of many bytes, one of as many bytes in numbers of one byte, and the
# most times that the first may take of the second.
BESIDE = {
    "unknown numbers of ten bytes in an occurrence": (
        lambda: document(definition(500_000 * (b"\xf8" + 8 * b"\x80" + b"\x00" + TEN))),
        lambda: document(definition(5_000_000 * b"\x78\x00")),
        1.5,
    ),
    "unknown numbers of ten bytes in a document": (
        lambda: document(definition(b"") + 500_000 * (b"\xf8" + 8 * b"\x80" + b"\x00" + TEN)),
        lambda: document(definition(b"") + 5_000_000 * b"\x78\x00"),
        1.5,
    ),
    "a range of numbers of three bytes": (
        lambda: document(definition(b"") + definition(record(1, 3_000_000 * b"\xa0\x9c\x01"))),
        lambda: document(definition(b"") + definition(record(1, 9_000_000 * b"\x01"))),
        1.5,
    ),
}


def beside(program, folder):
    """Tells how much longer numbers of many bytes take than as many bytes in short ones, and returns how much is wrong."""
    wrong = 0
    head("Numbers", "Seconds", "Times those of one byte", "at most")
    for name, (long, short, most) in BESIDE.items():
        took, faults = [], []
        for text in (long, short):
            write(f"{folder}/index", text)
            ends = [ended([program, "def", "index", "a", "0", "7"], folder) for _ in range(3)]
            took.append(min(it[2] for it in ends))
            faults += [f"status {it[0]}, {it[1][:200]!r}" for it in ends if it[0] != ANSWERED]
        ratio = took[0] / max(took[1], 0.001)
        faults += ["too long"] if ratio > most else []
        wrong += row(name, faults, f"{took[0]:.2f}", f"{ratio:.1f}", str(most))
    return wrong


def main(program=f"{HERE}/../crates/oscip/out/oscip", runs="500"):
    folder = tempfile.mkdtemp()
    # threads get stacks of 2 MiB
    resource.setrlimit(resource.RLIMIT_STACK, (2 << 20, resource.getrlimit(resource.RLIMIT_STACK)[1]))
    try:
        path = os.path.realpath(program)
        subprocess.run(["cc", "-O1", "-o", f"{folder}/peak", f"{HERE}/peak.c"], check=True)
        wrong = changing(path, folder, int(runs)) + harmful(path, folder) + counted(path, folder) + grown(path, folder) + beside(path, folder) + bound(path, folder) + walked(path, folder) + in_pieces(path, folder)
    finally:
        shutil.rmtree(folder)
    print(f"{wrong} wrong")
    return 1 if wrong else 0


if __name__ == "__main__":
    sys.exit(main(*sys.argv[1:]))
