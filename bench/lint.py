"""Checks an index of a tree by the rules that a linter of the SCIP format has: lint.py INDEX FOLDER

Each line of the answer is a rule that is broken; none is, so the status is 0 and one line counts what was looked at. The laws of the
program say the same of some rules, and are named beside them: of documents and occurrences in order `written_index`, of one
declaration a symbol `one_declaration`, of a symbol's one text `scip_symbol`'s `read`.
"""
import os
import re
import sys

DEFINITION, EXTERNAL = 1, "the external symbols"
NAME = r"(?:[\w+\-$]+|`(?:[^`]|``)*`)"
GLOBAL = re.compile(rf"(?:[^ ]|  )+ (?:[^ ]|  )+ (?:[^ ]|  )+ (?:[^ ]|  )+ (?:{NAME}(?:/|#|\.|:|!|\((?:{NAME})?\)\.)|\[{NAME}\]|\({NAME}\))+", re.A)
LOCAL = re.compile(r"local [\w+\-$]+", re.A)


def number(data, at):
    value = shift = 0
    while True:
        value |= (data[at] & 127) << shift
        shift += 7
        at += 1
        if data[at - 1] < 128:
            return value, at


def fields(data):
    """The fields of a message: each number with its value, bytes or a number."""
    at = 0
    while at < len(data):
        key, at = number(data, at)
        value, at = number(data, at)
        if key % 8 == 2:
            value, at = data[at : at + value], at + value
        yield key // 8, value


def numbers(data):
    at, found = 0, []
    while at < len(data):
        it, at = number(data, at)
        found.append(it)
    return found


def message(data):
    found = {}
    for key, value in fields(data):
        found.setdefault(key, []).append(value)
    return found


def text(found, key):
    return found.get(key, [b""])[-1].decode()


def span(found):
    it = numbers(b"".join(found.get(1, [])))
    return (it[0], it[1], it[0], it[2]) if len(it) == 3 else tuple(it)


class Linter:
    def __init__(self, folder):
        self.folder, self.broken, self.occurrences = folder, [], 0
        self.paths, self.informed, self.used = [], {}, set()

    def want(self, holds, place, rule):
        if not holds:
            self.broken.append(f"{place}: {rule}")

    def symbol(self, name, place):
        """A symbol's information: its text is a symbol's, and none has two."""
        self.want(GLOBAL.fullmatch(name) or LOCAL.fullmatch(name), place, f"{name!r} is no symbol")
        key = (place, name) if name.startswith("local ") else name
        self.want(key not in self.informed, place, f"{name!r} has information twice")
        self.informed[key] = place

    def document(self, found):
        path = text(found, 1)
        self.paths.append(path)
        self.want(path and not path.startswith("/") and not {"", ".", ".."} & set(path.split("/")), path, "isn't a plain path below the root")
        for it in found.get(3, []):
            self.symbol(text(message(it), 1), path)
        with open(os.path.join(self.folder, path), "rb") as file:
            lines = re.split(rb"\r\n|\n|\r", file.read())
        before, defined = ((), ""), set()
        for it in found.get(2, []):
            it = message(it)
            at, name, roles = span(it), text(it, 2), it.get(3, [0])[-1]
            self.occurrences += 1
            self.used.add((path, name))
            self.want(before < (at, name), path, f"{at} doesn't come behind {before[0]}")
            self.want(len(at) == 4 and at[:2] < at[2:] and at[2] < len(lines) and at[1] <= len(lines[at[0]]) and at[3] <= len(lines[at[2]]), path, f"{at} isn't in the text")
            if roles & DEFINITION:
                self.want(name not in defined, path, f"{name!r} is defined twice")
                defined.add(name)
            before = (at, name)
        for it in found.get(3, []):
            name = text(message(it), 1)
            self.want(name in defined, path, f"{name!r} has information and no definition")

    def index(self, data):
        found = message(data)
        for it in found.get(2, []):
            self.document(message(it))
        for it in found.get(3, []):
            self.symbol(text(message(it), 1), EXTERNAL)
        self.want(self.paths == sorted(set(self.paths), key=lambda it: it.encode()), "the index", "its documents aren't in the order of their paths, each once")
        for path, name in sorted(self.used):
            self.want(((path, name) if name.startswith("local ") else name) in self.informed, path, f"{name!r} has no information")
        used = {name for _, name in self.used}
        for name, place in self.informed.items():
            self.want(place != EXTERNAL or name in used, EXTERNAL, f"{name!r} is used nowhere")


def main(index, folder):
    linter = Linter(folder)
    with open(index, "rb") as it:
        linter.index(it.read())
    print("\n".join(linter.broken[:20]) or f"{len(linter.paths)} documents, {linter.occurrences} occurrences, {len(linter.informed)} symbols: as the format's linter wants them")
    return 1 if linter.broken else 0


if __name__ == "__main__":
    sys.exit(main(*sys.argv[1:]))
