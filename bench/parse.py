# Runs the program of bench/timing on folders of generated modules, beside other programs, and prints rates and ratios.
# Each time is the least of seven rounds, or of as many as begin within 20 seconds; what is compared takes turns.
# Usage: parse.py PROGRAM PEAK scan|lines|parse|scopes|emit|walk FOLDER SHAPE..
import os, shutil, subprocess, sys, time

program, peak, step, folder = sys.argv[1:5]
shapes = sys.argv[5:]
QUIET = dict(stdout=subprocess.DEVNULL, stderr=subprocess.DEVNULL, check=True)
STEPS = ["read", "scan", "parse"]


def files_of(shape):
    place = os.path.join(folder, shape)
    return [os.path.join(place, name) for name in sorted(os.listdir(place))]


def own_times(step, files):
    """The nanoseconds of each step of one run, and what was counted."""
    said = subprocess.run([program, step, *files], capture_output=True, text=True, check=True).stdout.split()
    told = {name: int(number) for name, number in zip(said[::2], said[1::2])}
    if told.pop("refused"):
        sys.exit("of %d files, of which %s is the first, something was refused" % (len(files), files[0]))
    return told


def whole(name, *command):
    """The nanoseconds of a process."""
    start = time.perf_counter()
    subprocess.run(command, **QUIET)
    return {name: (time.perf_counter() - start) * 1e9}


def least(*rounds):
    """The least of each time that the rounds tell."""
    best, begin = {}, time.perf_counter()
    for _ in range(7):
        for one in rounds:
            for name, number in one().items():
                best[name] = min(best.get(name, number), number)
        if time.perf_counter() - begin > 20:
            break
    return best


def memory(step, files):
    """The greatest resident size in bytes."""
    said = subprocess.run([peak, program, step, *files], stdout=subprocess.DEVNULL, stderr=subprocess.PIPE, text=True, check=True)
    return int(said.stderr.split()[-1]) * 1024


def rate(count, nanoseconds):
    return "%.0f" % (count * 1000 / nanoseconds) if nanoseconds > 1e6 else "-"


if step == "lines":
    print("| Shape | Tokens | Making the lines, scan | A place for each token, scan |\n|---|---|---|---|")
    for shape in shapes:
        files = files_of(shape)
        best = least(lambda: own_times(step, files))
        ratios = ["%.2f" % (best[name] / best["scan"]) for name in ("lines", "places")]
        print("| %s | %d | %s | %s |" % (shape, best["tokens"], *ratios), flush=True)
    sys.exit()

if step == "scopes":
    names = ["read_table", "scopes", "parse"]
    print("| Shape | Tokens | %s | Bytes of a table, a token |" % " | ".join("`%s`, `scan`" % name for name in names))
    print("|---" * (len(names) + 3) + "|")
    for shape in shapes:
        files = files_of(shape)
        best = least(lambda: own_times(step, files))
        ratios = ["%.2f" % (best[name] / best["scan"]) for name in names]
        size = (memory("table", files) - memory("scan", files)) / best["tokens"]
        print("| %s | %d | %s | %.0f |" % (shape, best["tokens"], " | ".join(ratios), size), flush=True)
    sys.exit()

if step == "emit":
    names = ["scan", "read_table", "scopes", "types", "references", "document", "to_bytes", "document_record", "parse"]
    print("Milliseconds of each step, and bytes of documents a source byte")
    print("| Shape | %s | Bytes |" % " | ".join(names))
    print("|---" * (len(names) + 2) + "|")
    for shape in shapes:
        files = files_of(shape)
        best = least(lambda: own_times(step, files))
        times = ["%.1f" % (best[name] / 1e6) for name in names]
        print("| %s | %s | %.1f |" % (shape, " | ".join(times), best["indexed"] / best["bytes"]), flush=True)
    sys.exit()

def by_ctags(*words):
    """The nanoseconds of ctags, where it is there."""
    return whole("ctags", "ctags", "-f", "-", *words) if shutil.which("ctags") else {}


def over(one, other):
    return "%.1f" % (one / other) if other else "-"


source = files_of("c")
size = sum(map(os.path.getsize, source))
peers = least(lambda: whole("cc", "cc", "-w", "-fsyntax-only", *source), lambda: by_ctags(*source), lambda: whole("wc", "wc", *source))
print("C of %d bytes, MB/s: cc %s, ctags %s, wc %s" % (size, *(rate(size, peers.get(name, 0)) for name in ("cc", "ctags", "wc"))))

last = "scan" if step == "scan" else "parse"
rows = []
print("MB/s of the steps, and the bytes of memory after %s a source byte" % last)
print("%-8s %5s %9s %8s | %6s %6s %6s %6s %6s | %5s" % (
    "shape", "files", "bytes", "tokens", "scan", "parse", "yield", "decls", "uses", "bytes"))
for shape in shapes:
    files = files_of(shape)
    best = least(lambda: own_times(step, files),
                 lambda: whole("scanning", program, "scan", *files),
                 lambda: whole("whole", program, last, *files),
                 lambda: whole("wc", "wc", *files),
                 lambda: by_ctags("--language-force=Pascal", *files))
    count = best["bytes"]
    rates = [rate(count, best[name]) for name in ("scan", "parse", "yields", "declarations", "uses")]
    sizes = [memory(name, files) / count for name in STEPS[:1 + STEPS.index(last)]]
    print("%-8s %5d %9d %8d | %6s %6s %6s %6s %6s | %5.1f" % (
        shape, len(files), count, best["tokens"], *rates, sizes[-1]), flush=True)
    ratios = [over(best["scanning"], best["wc"]), over(best["whole"], best["wc"]), over(best["whole"], best.get("ctags", 0))]
    ratios += [over(best["whole"] / count, peers["cc"] / size), over(best["parse"], best["scan"]), over(best["yields"], best["scan"])]
    parts = [sizes[0]] + [more - less for less, more in zip(sizes, sizes[1:])] + [0] * (3 - len(sizes)) + [sizes[-1]]
    rows.append([shape] + ratios + ["%.1f" % number for number in parts])

# The table for the README.
print("| Shape | To scan, wc | To %s, wc | ctags | cc | Parse, scan | Yield, scan | Texts | Tokens | Trees | Memory |" % last)
print("|---" * 11 + "|")
for row in rows:
    print("|", " | ".join(row), "|")
