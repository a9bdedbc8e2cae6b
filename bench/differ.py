# Compares cut-net with its definitions on small random networks, half of them with prices, by going through all sets of imports and
# all sides. An import is a triple: who imports, what is imported, the weight; a line of prices is one too, without a weight where it
# is a pin. It writes the files net, prices and report where it is run.
# Usage: differ.py PROGRAM SEED CASES
import itertools, random, subprocess, sys


def subsets(things):
    return (set(some) for size in range(len(things) + 1) for some in itertools.combinations(things, size))


def reached(imports, start):
    """The modules that chains of these imports lead to."""
    found, new = {start}, {start}
    while new:
        new = {to for (of, to, _) in imports if of in new} - found
        found |= new
    return found


def weight(imports):
    return sum(amount for (_, _, amount) in imports)


def is_cut(imports, removed, a, b):
    return b not in reached(imports - removed, a)


def least_weight(imports, pins, a, b):
    """That of the cheapest set of imports without a pin that cuts a and b apart."""
    return min(weight(removed) for removed in subsets(imports) if is_cut(imports | pins, removed, a, b))


def leaving(imports, side):
    return {i for i in imports if i[0] in side and i[1] not in side}


def near(modules, imports, pins, a, b):
    """The modules that are in every side of least weight, of the sides that no pinned import leaves."""
    sides = [side for side in (some | {a} for some in subsets(modules - {a, b})) if not leaving(pins, side)]
    weights = [weight(leaving(imports, side)) for side in sides]
    return set.intersection(*(side for side, w in zip(sides, weights) if w == min(weights)))


def printed(modules, imports, pins, a, b):
    """Of the imports that leave the near modules, those whose imported module has a chain to b by none of these."""
    away = leaving(imports, near(modules, imports, pins, a, b))
    return {i for i in away if b in reached(imports - away | pins, i[1])}


def chains(imports, a, b):
    """All chains from a to b."""
    if a == b:
        return [[b]]
    return [[a, *rest] for (of, to, _) in imports if of == a for rest in chains(imports, to, b)]


def with_prices(imports, prices):
    """The imports without a pin, with their weights, and those with one."""
    said = {(of, to): price for of, to, price in prices}
    pins = {i for i in imports if said.get(i[:2], 0) is None}
    return {(of, to, said.get((of, to), amount)) for of, to, amount in imports - pins}, pins


def front(a, b, least, removed):
    """The lines of a report down to the last remove line."""
    return f"cut {a} {b}\nweight {least}\n" + "".join("remove %s %s %d\n" % i for i in sorted(removed))


def front_by_definition(imports, pins, a, b):
    """What is printed has to be a cheapest cut too."""
    modules = {a, b} | {of for of, _, _ in imports | pins} | {to for _, to, _ in imports | pins}
    removed, least = printed(modules, imports, pins, a, b), least_weight(imports, pins, a, b)
    assert weight(removed) == least and is_cut(imports | pins, removed, a, b)
    return front(a, b, least, removed)


def answer_by_definition(imports, prices, a, b):
    """The lines of a report down to the last remove line, or all that is put or told."""
    imports, pins = with_prices(imports, prices)
    if weight(imports) > 2**40:
        return "oscip: PriceOverflow\nstatus 1\n"
    blocking = chains(pins, a, b)
    if blocking:
        return "cut %s %s\nblocked %s\nend\n" % (a, b, " ".join(min(blocking, key=lambda chain: (len(chain), chain))))
    return front_by_definition(imports, pins, a, b)


def random_case():
    names, size = set(), random.randint(2, 7)
    while len(names) < size:
        names.add(random.choice(["A", "B", "a", "b", "END"]) + random.choice(["", "", "0", "1", "10", "A", "a"]))
    order = random.sample(sorted(names), size)
    pairs = list(itertools.combinations(order, 2))
    most = min(10, len(pairs))
    weights = [0, 0, 0, 0, 1, 1, 2, 3, 5, 2**60]
    imports = {(of, to, random.choice(weights)) for of, to in random.sample(pairs, random.randint(most // 2, most))}
    a, b = (order[0], order[-1]) if random.random() < 0.8 else random.sample(order, 2)
    return imports, a, b


def text_of(imports, a, b):
    lines = [f"module {a}\n", f"module {b}\n"] + ["import %s %s %d\n" % i for i in sorted(imports)]
    random.shuffle(lines)
    return "".join(lines)


def random_prices(imports):
    """Lines on some of the imports."""
    told = random.sample(sorted(imports), random.randint(0, len(imports)))
    return [(of, to, random.choice([None, None, 0, 1, 2, 4, 2**38])) for of, to, _ in told]


def text_of_prices(prices):
    return "".join(f"pin {of} {to}\n" if price is None else f"price {of} {to} {price}\n" for of, to, price in prices)


def run(program, *words):
    done = subprocess.run([program, *words], stdout=subprocess.PIPE, stderr=subprocess.STDOUT, text=True)
    return done.stdout if done.returncode == 0 else f"{done.stdout}status {done.returncode}\n"


def write(path, text):
    with open(path, "w") as file:
        file.write(text)


def is_like(report, wanted):
    return report == wanted or report.startswith(wanted) and report[len(wanted) :].startswith(("flow ", "end\n"))


def is_right(program, text, wanted, a, b, prices=None):
    write("net", text)
    write("prices", prices or "")
    option = [] if prices is None else ["--prices", "prices"]
    report = run(program, "cut-net", *option, "net", a, b)
    write("report", report)
    is_refused = wanted.startswith("oscip: ")
    verdict = "yes\n" if is_refused else run(program, "check-net", *option, "net", "report")
    if is_like(report, wanted) and verdict == "yes\n":
        return True
    print(f"Of the network\n{text}with the prices\n{prices}\nwanted\n{wanted}got\n{report}of which check-net says\n{verdict}", end="")
    return False


# Expected by hand: the network, the two modules, the weight and what is removed.
KNOWN = [
    ("A U 5, U D 1, A V 0, V U 3", "A", "D", 1, "U D 1"),
    ("A M 2, M B 2", "A", "B", 2, "A M 2"),
    ("A M 0, M B 0", "A", "B", 0, "A M 0"),
    ("B M 1, M A 1", "A", "B", 0, ""),
]


def triples(text):
    return {(of, to, int(w)) for of, to, w in (part.split() for part in text.split(", ") if part)}


def main():
    program, seed, cases = sys.argv[1], int(sys.argv[2]), int(sys.argv[3])
    random.seed(seed)
    for text, a, b, least, removed in KNOWN:
        imports, wanted = triples(text), front(a, b, least, triples(removed))
        assert front_by_definition(imports, set(), a, b) == wanted
        if not is_right(program, text_of(imports, a, b), wanted, a, b):
            return 1
    zeros = blocked = refused = 0
    for at in range(cases):
        imports, a, b = random_case()
        prices = random_prices(imports) if at % 2 else None
        wanted = front_by_definition(imports, set(), a, b) if prices is None else answer_by_definition(imports, prices, a, b)
        zeros += any(line.startswith("remove ") and line.endswith(" 0") for line in wanted.split("\n"))
        blocked += "\nblocked " in wanted
        refused += wanted.startswith("oscip: ")
        if not is_right(program, text_of(imports, a, b), wanted, a, b, None if prices is None else text_of_prices(prices)):
            return 1
    print(f"{len(KNOWN)} networks by hand and {cases} of seed {seed}: all right; {zeros} remove an import of weight 0, "
          f"{blocked} are blocked, and {refused} cost too much")
    return 0


if __name__ == "__main__":
    sys.exit(main())
