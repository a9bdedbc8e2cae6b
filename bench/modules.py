# Writes modules of Oberon-07, or C of the same style, the same for the same words.
# Usage: modules.py SHAPE FOLDER [SEED]. The environment variable PART divides the number of modules, and the 16 MB.
#   files    500 modules of 20 KB
#   graph    4,096 modules of 6 KB with some 57,000 imports and no cycle
#   large    one module of 16 MB
#   comment  a small module with one comment of 16 MB
#   nested   one module of 16 MB with procedures, statements and expressions nested to 200 levels
#   deep     one module of 16 MB with procedures nested to 198 levels, the innermost of which uses a variable of the module
#   c        C like the module of large, of its size
import os, random, sys

PART = int(os.environ.get("PART", 1))
LIMIT = 16 * 1024 * 1024 // PART
DEEPEST = 200

VERBS = "Find Insert Remove Draw Mark Open Close Read Write Copy Move Store Scan Next Count Check Merge Split Swap Init".split()
NOUNS = "Line Text Frame Block Item Entry Sector Buffer Token Symbol Node Path Window Pattern Key Page Table Event Font".split()
FIELDS = "key len pos width height left right size color state mode offset".split()
LOCALS = "i j k n m x y w h pos len sum key val beg end lim org dx dy adr".split()
WORDS = ("the of a next last entry table list where it was found in order to keep its place no more than one line each is read "
         "before others are written up from first sector buffer full empty until end mark size left over").split()

OBERON = {"+": "+", "-": "-", "*": "*", "DIV": "DIV", "MOD": "MOD", "&": "&", "OR": "OR", "~": "~", "=": "=", "#": "#",
          "<": "<", "<=": "<=", ">": ">", ">=": ">=", "NIL": "NIL", "TRUE": "TRUE", "FALSE": "FALSE"}
C = dict(OBERON, DIV="/", MOD="%", OR="||", NIL="0", TRUE="1", FALSE="0", **{"&": "&&", "~": "!", "=": "==", "#": "!="})


def name_of(module):
    """Six letters, another name for each number below 512,000; their order says nothing of that of the numbers."""
    rest, text = module * 331337 % 512000, ""
    for _ in range(3):
        text += "bdfghklmnprstvwz"[rest % 16] + "aeiou"[rest // 16 % 5]
        rest //= 80
    return text.capitalize()


class Maker:
    """Writes the parts of one module. All values are integers, booleans, and pointers to records."""

    def __init__(self, chance, in_c=False):
        self.chance, self.in_c, self.word = chance, in_c, C if in_c else OBERON
        self.lines, self.size, self.taken = [], 0, set()
        self.constants, self.types, self.calls, self.imports = [], [], [], []
        self.globals, self.tables = [], []

    def put(self, level, text):
        line = "  " * level + text
        self.lines.append(line)
        self.size += len(line) + 1

    def pick(self, items):
        return items[int(self.chance.random() * len(items))]

    def odds(self, share):
        return self.chance.random() < share

    def below(self, limit):
        return int(self.chance.random() * limit)

    def fresh(self, *pools):
        text = "".join(self.pick(pool) for pool in pools)
        while text in self.taken:
            text = text.rstrip("0123456789") + str(self.below(10 * len(self.taken) + 100))
        self.taken.add(text)
        return text

    def note(self, level, count=None):
        text = " ".join(self.pick(WORDS) for _ in range(count or 3 + self.below(9)))
        self.put(level, "/* %s */" % text if self.in_c else "(* %s *)" % text)

    # Expressions.

    def number(self):
        n = self.below(64) if self.odds(0.8) else self.below(65536)
        if self.odds(0.15):
            return "0x%X" % n if self.in_c else "0%XH" % n
        return str(n)

    def field(self, pointer, field):
        return "%s%s%s" % (pointer, "->" if self.in_c else ".", field)

    def index(self, table, *places):
        return table + ("[%s]" % ("][" if self.in_c else ", ").join(places))

    def leaf(self):
        roll = self.below(20)
        if roll < 10:
            return self.pick(self.integers)
        if roll < 13:
            return self.number()
        if roll < 15:
            return self.pick(self.constants)
        if roll < 17 and self.pointers:
            pointer, kind = self.pick(self.pointers)
            if self.odds(0.3):
                return self.index(self.field(pointer, "data"), self.pick(self.integers))
            return self.field(pointer, self.pick(kind[1]))
        if roll < 18 and self.imports:
            return "%s.%s" % (self.pick(self.imports), self.pick(["Limit", "Size", "total"]))
        if roll < 19:
            return self.pick(self.globals)
        return self.index(self.pick(self.tables), self.pick(self.integers), str(self.below(8)))

    def sum(self, depth):
        if depth == 0 or self.odds(0.35):
            return self.leaf()
        roll = self.below(10)
        if roll < 5:
            return "%s %s %s" % (self.sum(depth - 1), self.pick("+-"), self.term(depth - 1))
        if roll < 9 or not self.functions():
            return self.term(depth)
        return self.call(self.pick(self.functions()), depth - 1)

    def term(self, depth):
        if depth == 0 or self.odds(0.4):
            return self.leaf()
        operator = self.pick(["*", "DIV", "MOD"])
        other = self.leaf() if operator == "*" else str(2 + self.below(30))
        left = self.sum(depth - 1) if self.odds(0.5) else self.leaf()
        return "%s %s %s" % ("(%s)" % left if " " in left else left, self.word[operator], other)

    def relation(self, depth):
        return "%s %s %s" % (self.sum(depth), self.word[self.pick(["=", "#", "<", "<=", ">", ">="])], self.sum(depth - 1))

    def condition(self, depth=2):
        roll = self.below(12)
        if roll < 6:
            return self.relation(depth)
        if roll < 8 and self.pointers:
            return "%s %s %s" % (self.pick(self.pointers)[0], self.word[self.pick("=#")], self.word["NIL"])
        if roll < 9:
            return self.word["~"] + "done"
        if roll < 10 and not self.in_c:
            return "%s IN {%s, %d..%d}" % (self.pick(self.integers), self.pick(self.constants), self.below(8), 9 + self.below(20))
        return "(%s) %s (%s)" % (self.relation(depth - 1), self.word[self.pick(["&", "OR"])], self.relation(depth - 1))

    def functions(self):
        return [call for call in self.calls[-12:] if call[2]]

    def call(self, call, depth):
        name, kinds, _ = call
        words = []
        for kind in kinds:
            if kind is None:
                words.append(self.sum(depth))
            else:
                own = [pointer for pointer, of in self.pointers if of is kind]
                words.append(self.pick(own) if own else self.word["NIL"])
        return "%s(%s)" % (name, ", ".join(words))

    # Statements: each puts its lines, the last one with what stands behind it.

    def end(self, last):
        return ";" if self.in_c or not last else ""

    def block(self, level, count, depth):
        for k in range(count):
            self.statement(level, depth, k == count - 1)

    def statement(self, level, depth, last):
        if self.odds(0.06):
            self.note(level)
        roll = self.below(20) if depth > 0 else self.below(10)
        if roll < 7:
            self.assignment(level, last)
        elif roll < 10:
            self.plain_call(level, last)
        elif roll < 14:
            self.choice(level, depth, last)
        elif roll < 16:
            self.repetition(level, depth, last)
        elif roll < 18:
            self.count_up(level, depth, last)
        elif roll < 19:
            self.cases(level, depth, last)
        else:
            self.until(level, depth, last)

    def assignment(self, level, last):
        roll, becomes = self.below(20), "=" if self.in_c else ":="
        if roll < 9:
            left, right = self.pick(self.variables), self.sum(3)
        elif roll < 12 and self.pointers:
            pointer, kind = self.pick(self.pointers)
            left, right = self.field(pointer, self.pick(kind[1])), self.sum(2)
        elif roll < 14:
            left, right = self.index(self.pick(self.tables), self.pick(self.integers), str(self.below(8))), self.sum(2)
        elif roll < 16 and self.pointers:
            left = self.pick(self.pointers)[0]
            right = self.field(left, "next")
        elif roll < 18:
            left, right = self.pick(self.globals), self.sum(2)
        else:
            left, right = "done", self.relation(2) if self.odds(0.4) else self.word[self.pick(["TRUE", "FALSE"])]
        self.put(level, "%s %s %s%s" % (left, becomes, right, self.end(last)))

    def plain_call(self, level, last):
        roll = self.below(10)
        if roll < 3:
            left = self.pick(self.variables)
            text = "%s++" % left if self.in_c else "INC(%s)" % left
        elif roll < 5 and self.imports:
            text = "%s.%s(%s)" % (self.pick(self.imports), self.pick(["Put", "Mark"]), self.sum(2))
        else:
            proper = [call for call in self.calls[-12:] if not call[2]]
            if not proper:
                return self.assignment(level, last)
            text = self.call(self.pick(proper), 2)
        self.put(level, text + self.end(last))

    def choice(self, level, depth, last):
        self.put(level, ("if (%s) {" if self.in_c else "IF %s THEN") % self.condition())
        self.block(level + 1, 1 + self.below(3), depth - 1)
        while self.odds(0.2):
            self.put(level, ("} else if (%s) {" if self.in_c else "ELSIF %s THEN") % self.condition())
            self.block(level + 1, 1 + self.below(2), depth - 1)
        if self.odds(0.3):
            self.put(level, "} else {" if self.in_c else "ELSE")
            self.block(level + 1, 1 + self.below(2), depth - 1)
        self.put(level, "}" if self.in_c else "END" + self.end(last))

    def repetition(self, level, depth, last):
        self.put(level, ("while (%s) {" if self.in_c else "WHILE %s DO") % self.condition())
        self.block(level + 1, 1 + self.below(3), depth - 1)
        self.put(level, "}" if self.in_c else "END" + self.end(last))

    def count_up(self, level, depth, last):
        i, first, bound = self.pick(self.variables), self.number(), self.sum(1)
        self.put(level, "for (%s = %s; %s <= %s; %s++) {" % (i, first, i, bound, i) if self.in_c else
                 "FOR %s := %s TO %s DO" % (i, first, bound))
        self.block(level + 1, 1 + self.below(3), depth - 1)
        self.put(level, "}" if self.in_c else "END" + self.end(last))

    def until(self, level, depth, last):
        self.put(level, "do {" if self.in_c else "REPEAT")
        self.block(level + 1, 1 + self.below(3), depth - 1)
        self.put(level, ("} while (!(%s));" if self.in_c else "UNTIL %s" + self.end(last)) % self.condition())

    def cases(self, level, depth, last):
        self.put(level, ("switch (%s) {" if self.in_c else "CASE %s OF") % self.pick(self.integers))
        label = 0
        for k in range(2 + self.below(4)):
            low, high = label, label + 1 + self.below(4)
            label = high + 1
            if self.in_c:
                self.put(level + 1, " ".join("case %d:" % n for n in range(low, high + 1)))
            else:
                self.put(level, "%s %s:" % ("|" if k else " ", self.pick(["%d, %d", "%d..%d"]) % (low, high)))
            self.block(level + 2, 1 + self.below(2), depth - 1)
            if self.in_c:
                self.put(level + 2, "break;")
        self.put(level, "}" if self.in_c else "END" + self.end(last))

    # Declarations.

    def declare_constants(self, count):
        if not self.in_c:
            self.put(1, "CONST")
        for k in range(count):
            name = ["Limit", "Size"][k] if k < 2 else self.fresh(NOUNS, ["Max", "Len", "Bit", "Base"])
            self.taken.add(name)
            self.constants.append(name)
            if self.in_c:
                self.put(0, "enum { %s = %s };" % (name, self.number()))
            else:
                value = self.number() if k < 2 or self.odds(0.6) else "%s %s %d" % (self.pick(self.constants[:2]), self.pick("+-*"), 1 + k)
                self.put(2, "%s%s = %s;" % (name, "*" if k < 2 or self.odds(0.3) else "", value))
        if not self.in_c:
            self.put(2, 'Title = "%s %s"; Tab = 9X; Scale = %d.5E-%d;' % (self.pick(NOUNS), self.pick(NOUNS), self.below(90), 1 + self.below(9)))
            self.taken.update(["Title", "Tab", "Scale"])

    def declare_types(self, count):
        if not self.in_c:
            self.put(1, "TYPE")
        for _ in range(count):
            name = self.fresh(NOUNS)
            self.taken.add(name + "Desc")
            fields = self.chance.sample(FIELDS, 3 + self.below(4))
            self.types.append((name, fields))
            if self.in_c:
                self.put(0, "typedef struct %sDesc %sDesc, *%s;" % (name, name, name))
                self.put(0, "struct %sDesc { %s next; int %s; int data[32]; char name[32]; };" % (name, name, ", ".join(fields)))
                continue
            self.put(2, "%s* = POINTER TO %sDesc;" % (name, name))
            self.put(2, "%sDesc* = RECORD" % name)
            self.put(3, "next: %s; %s*: INTEGER;" % (name, "*, ".join(fields)))
            self.put(3, "data*: ARRAY 32 OF INTEGER; name: ARRAY 32 OF CHAR")
            self.put(2, "END;")
        if not self.in_c:
            self.put(2, "Handler* = PROCEDURE (first: %s; VAR n: INTEGER);" % self.types[0][0])
            self.taken.add("Handler")

    def declare_variables(self, count):
        self.globals = ["total"] + [self.fresh(FIELDS, NOUNS) for _ in range(count)]
        self.tables = [self.fresh(["table", "map", "grid"]) for _ in range(2)]
        self.roots = [(self.fresh(["first", "last", "free", "root"], [kind[0]]), kind) for kind in self.types]
        self.taken.update(["total", "done"])
        if self.in_c:
            self.put(0, "int %s;" % ", ".join(self.globals))
            self.put(0, "int %s;" % ", ".join(table + "[64][8]" for table in self.tables))
            for root, kind in self.roots:
                self.put(0, "%s %s;" % (kind[0], root))
            return
        self.put(1, "VAR")
        self.put(2, "total*, %s: INTEGER;" % ", ".join(self.globals[1:]))
        self.put(2, "%s: ARRAY 64, 8 OF INTEGER;" % ", ".join(self.tables))
        for root, kind in self.roots:
            self.put(2, "%s: %s;" % (root, kind[0]))

    def procedure(self, name=None, starred=False):
        """One with parameters and variables of its own; with a name an exported one of one integer."""
        kinds = [None] if name else [self.pick(self.types) if self.odds(0.35) else None for _ in range(self.below(4))]
        answers = name in ("Measure",) or (not name and self.odds(0.4))
        name = name or self.fresh(VERBS, NOUNS)
        self.taken.add(name)
        names = self.chance.sample(LOCALS, len(kinds) + 2 + self.below(4))
        words, own = names[:len(kinds)], names[len(kinds):]
        at = self.pick(self.types)
        self.variables = own + [word for word, kind in zip(words, kinds) if kind is None]
        self.integers = self.variables
        self.pointers = [("p", at), ("q", at)] + [(word, kind) for word, kind in zip(words, kinds) if kind] + self.roots[:1]
        self.put(0, "")
        if self.odds(0.7):
            self.note(1 - self.in_c)
        if self.in_c:
            put = ", ".join("%s %s" % (kind[0] if kind else "int", word) for word, kind in zip(words, kinds))
            self.put(0, "static %s %s(%s) {" % ("int" if answers else "void", name, put or "void"))
            self.put(1, "int %s, done = 0; %s p = 0, q = 0;" % (", ".join(word + " = 0" for word in own), at[0]))
        else:
            put = "; ".join("%s%s: %s" % ("VAR " if not kind and not starred and self.odds(0.1) else "", word, kind[0] if kind else "INTEGER")
                            for word, kind in zip(words, kinds))
            star = "*" if starred or self.odds(0.2) else ""
            answer = ": INTEGER" if answers else ""
            self.put(1, "PROCEDURE %s%s%s%s;" % (name, star, "(%s)" % put if put or answers else "", answer))
            self.put(2, "VAR %s: INTEGER; done: BOOLEAN; p, q: %s;" % (", ".join(own), at[0]))
            self.put(1, "BEGIN")
        self.block(2 - self.in_c, 3 + self.below(6), 2)
        if answers:
            self.put(1 + (not self.in_c), ("return %s;" if self.in_c else "RETURN %s") % self.sum(2))
        self.put(1 - self.in_c, "}" if self.in_c else "END %s;" % name)
        # An own VAR parameter would want a variable, so only values are passed on.
        if self.in_c or "VAR " not in put:
            self.calls.append((name, kinds, answers))

    def fill(self, most, constants=12, types=4, variables=8):
        """Declarations and procedures, up to so many bytes."""
        self.declare_constants(constants)
        self.put(0, "")
        self.declare_types(types)
        self.put(0, "")
        self.declare_variables(variables)
        if not self.in_c:
            self.procedure("Measure", True)
            for name in "Put", "Mark":
                self.procedure(name, True)
        while True:
            lines, size = len(self.lines), self.size
            self.procedure()
            if self.size > most:
                del self.lines[lines:]
                self.size = size
                return

    def text(self):
        return "\n".join(self.lines) + "\n"


def module(chance, name, imports, most, **counts):
    maker = Maker(chance)
    maker.put(0, "MODULE %s;" % name)
    maker.note(1, 12)
    if imports:
        items = []
        for other in imports:
            alias = other[0] if maker.odds(0.2) and other[0] not in maker.taken else other
            maker.taken.add(alias)
            maker.imports.append(alias)
            items.append(other if alias == other else "%s := %s" % (alias, other))
        maker.put(1, "IMPORT %s;" % ", ".join(items))
    maker.put(0, "")
    maker.fill(most - 250, **counts)
    maker.put(0, "")
    maker.put(0, "BEGIN")
    for variable in maker.globals:
        maker.put(1, "%s := 0;" % variable)
    maker.put(1, "%s := NIL" % maker.roots[0][0])
    maker.put(0, "END %s." % name)
    return maker.text()


def files(chance):
    for k in range(500 // PART):
        imports = sorted(name_of(other) for other in chance.sample(range(k), min(k, 3 + k % 6)))
        yield name_of(k), module(chance, name_of(k), imports, 20000)


def graph(chance):
    """Each module imports fourteen that come before it."""
    for k in range(4096 // PART):
        imports = sorted(name_of(other) for other in chance.sample(range(k), min(k, 14)))
        yield name_of(k), module(chance, name_of(k), imports, 6800, constants=5, types=2, variables=3)


def large(chance):
    yield "Large", module(chance, "Large", [], LIMIT, constants=60, types=12, variables=40)


def comment(chance):
    begin, end = "MODULE Comment;\n", "\nEND Comment.\n"
    lines, size = [], 0
    while size < LIMIT - len(begin) - len(end) - 400:
        words = [chance.choice(WORDS) for _ in range(12)]
        if chance.random() < 0.2:
            words[5] = chance.choice(["(* inside *)", "*", "(f)", "2 * 3", '"'])
        lines.append(" ".join(words))
        size += len(lines[-1]) + 1
    text = begin + "(* " + "\n".join(lines) + " *)" + end
    yield "Comment", text


class Nest:
    """Procedures in one another, with statements in one another, with expressions in one another."""

    def __init__(self, chance):
        self.chance, self.lines, self.size, self.count = chance, [], 0, 0

    def put(self, text):
        self.lines.append(text)
        self.size += len(text) + 1

    def sum(self, levels):
        """An expression with so many expressions in one another below it."""
        left, right = [], []
        for _ in range(levels):
            before, after = self.chance.choice([("(", ") + x"), ("y * (", ")"), ("a[", "] - z"), ("F(x, ", ")"), ("(", ") DIV 3")])
            left.append(before)
            right.append(after)
        return "".join(left) + self.chance.choice("xyz") + "".join(reversed(right))

    def test(self, levels):
        """The same of type BOOLEAN, with factors after ~."""
        tildes = min(levels // 3, self.chance.randrange(20))
        if tildes == 0:
            return "%s > 0" % self.sum(levels)
        return "%s(%s > 0)" % ("~" * tildes, self.sum(levels - tildes - 1))

    def statements(self, level, most):
        """Statements in one another, of which the first has this level, and no more than so many levels in all."""
        depth = self.chance.randrange(min(60, most - level))
        ends = []
        for k in range(depth):
            levels = self.chance.randrange(min(4, most - level - k))
            kind = self.chance.randrange(3)
            if kind == 0:
                self.put("IF %s THEN" % self.test(levels))
                ends.append("ELSE x := 0 END")
            elif kind == 1:
                self.put("WHILE %s DO" % self.test(levels))
                ends.append("; y := z END")
            else:
                self.put("REPEAT")
                ends.append("UNTIL %s" % self.test(levels))
        left = most - level - depth - 1
        self.put("x := %s;" % self.sum(self.chance.randrange(left + 1)))
        self.put("a[%s] := %s" % (self.sum(max(0, left - 1) // 2), self.sum(left)))
        for end in reversed(ends):
            self.put(end)

    def procedure(self, level, inner):
        """A procedure of this level with so many in one another inside it."""
        self.count += 1
        name = "P%d" % self.count
        self.put("PROCEDURE %s(z: INTEGER): INTEGER;" % name)
        self.put("VAR x, y: INTEGER; a: ARRAY 8 OF INTEGER;")
        if inner > 0:
            self.procedure(level + 1, inner - 1)
        self.put("BEGIN")
        self.statements(level + 1, DEEPEST)
        self.put("RETURN %s" % self.sum(self.chance.randrange(DEEPEST - level)))
        self.put("END %s;" % name)


def nested(chance):
    nest = Nest(chance)
    nest.put("MODULE Nested;")
    nest.put("PROCEDURE F(x, y: INTEGER): INTEGER; RETURN x + y END F;")
    while True:
        lines, size = len(nest.lines), nest.size
        nest.procedure(1, chance.randrange(100))
        if nest.size > LIMIT - 100:
            del nest.lines[lines:]
            break
    nest.put("END Nested.")
    yield "Nested", "\n".join(nest.lines) + "\n"


def deep(chance):
    names = ["P%d" % k for k in range(1, DEEPEST - 1)]
    lines = ["MODULE Deep;", "VAR count: INTEGER;"] + ["PROCEDURE %s;" % name for name in names] + ["BEGIN"]
    ends = ["END %s;" % name for name in reversed(names)] + ["END Deep."]
    step = "count := count + 1;"
    left = LIMIT - 100 - sum(len(line) + 1 for line in lines + ends)
    yield "Deep", "\n".join(lines + [step] * (left // (len(step) + 1)) + ends) + "\n"


def c(chance):
    maker = Maker(chance, True)
    maker.fill(LIMIT - 100, constants=60, types=12, variables=40)
    yield "large", maker.text()


SHAPES = {shape.__name__: shape for shape in (files, graph, large, comment, nested, deep, c)}


def main():
    if len(sys.argv) not in (3, 4) or sys.argv[1] not in SHAPES:
        sys.exit("usage: modules.py %s FOLDER [SEED]" % "|".join(SHAPES))
    shape, folder = sys.argv[1:3]
    os.makedirs(folder, exist_ok=True)
    for name, text in SHAPES[shape](random.Random(int(sys.argv[3]) if len(sys.argv) > 3 else 1)):
        with open(os.path.join(folder, name + (".c" if shape == "c" else ".Mod")), "w", newline="") as file:
            file.write(text)


main()
