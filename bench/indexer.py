"""A plain indexer of Oberon-07 modules, by the rules of look-up alone: one pass over the tokens makes a module's declarations, uses and
designators, and then each identifier is given its target and role. It takes right modules, is as slow as it likes, and proves nothing.

indexer.py index FOLDER [PACKAGE [ROOT]]    writes the index of the modules below FOLDER to standard output
indexer.py unresolved FOLDER                prints the identifiers that mean nothing
"""
import bisect
import os
import re
import sys

RESERVED = set("ARRAY BEGIN BY CASE CONST DIV DO ELSE ELSIF END FALSE FOR IF IMPORT IN IS MOD MODULE NIL OF OR POINTER PROCEDURE RECORD "
               "REPEAT RETURN THEN TO TRUE TYPE UNTIL VAR WHILE".split())
PREDECLARED = set("BOOLEAN BYTE CHAR INTEGER REAL SET ABS ODD LEN LSL ASR ROR FLOOR FLT ORD CHR INC DEC INCL EXCL NEW ASSERT PACK UNPK".split())
TOKEN = re.compile(r'(?P<blank>[\x00-\x20]+)|(?P<open>\(\*)|(?P<name>[A-Za-z][A-Za-z0-9]*)|(?P<text>"[^"]*"|[0-9][0-9A-F]*X)|'
                   r'(?P<real>[0-9]+\.(?!\.)[0-9]*(?:E[+-]?[0-9]+)?)|(?P<number>[0-9][0-9A-F]*H?)|(?P<sign>:=|<=|>=|\.\.|[-+*/~&.,;|()\[\]{}^=#<>:])')
TOOL = "oscip"


class Token:
    def __init__(self, kind, text, start, end):
        self.kind, self.text, self.start, self.end = kind, text, start, end


class Block:
    def __init__(self, outer):
        self.outer, self.declared = outer, []


class Decl:
    """What an identifier is declared as. Fields stand in a record, all else in a block. `whole` are the first token and the last of its
    declaration."""

    def __init__(self, token, sort, block, star=False, record=None):
        self.token, self.sort, self.block, self.star, self.record = token, sort, block, star, record
        self.form = None
        self.module = None
        self.whole = None


class Record:
    def __init__(self, owner, block):
        self.owner, self.block, self.fields, self.base = owner, block, [], None


def tokens_of(text):
    found, at = [], 0
    while at < len(text):
        it = TOKEN.match(text, at)
        assert it, f"no token at {at}"
        if it.lastgroup == "open":
            depth, at = 1, at + 2
            while depth:
                if text.startswith("(*", at):
                    depth, at = depth + 1, at + 2
                elif text.startswith("*)", at):
                    depth, at = depth - 1, at + 2
                else:
                    assert at < len(text), "an open comment"
                    at += 1
            continue
        if it.lastgroup != "blank":
            word = it[0]
            kind = word if it.lastgroup == "sign" or word in RESERVED else it.lastgroup
            found.append(Token(kind, word, at, it.end()))
        at = it.end()
    return found


class Module:
    """A module's declarations, uses, names of types and designators, each by the numbers of its tokens."""

    def __init__(self, path, data):
        self.path, self.text = path, data.decode("latin-1")
        self.tokens, self.at = tokens_of(self.text), 0
        self.decls = []  # all of them, fields too, by start
        self.uses = {}  # token -> block where it is looked up
        self.targets_of_pointers = set()  # uses that are a pointer's lone target
        self.members = {}  # second identifier of a qualident -> the first
        self.designators = []  # (head, [(kind, ..)], is left side or loop variable)
        self.imports = []  # (alias token, module token)
        self.ends = {}  # token -> declared procedure, or none for the module
        self.module()
        self.line_starts = [0] + [it.end() for it in re.finditer(r"\r\n|\n|\r", self.text)]

    # ---- reading

    def peek(self, ahead=0):
        return self.tokens[self.at + ahead].kind if self.at + ahead < len(self.tokens) else None

    def take(self, *kinds):
        assert self.peek() in kinds, f"{self.path}: {self.peek()} in place of {kinds} at {self.tokens[self.at].start}"
        self.at += 1
        return self.at - 1

    def has(self, kind):
        if self.peek() == kind:
            self.at += 1
            return True
        return False

    def word(self, token):
        return self.tokens[token].text

    def declare(self, token, sort, block, star=False, record=None):
        decl = Decl(token, sort, block, star, record)
        decl.module = self
        self.decls.append(decl)
        (record.fields if record else block.declared).append(decl)
        return decl

    def end(self, first, found):
        for it in found:
            it.whole = (first, self.at - 1)

    def identdef(self, sort, block, record=None):
        token = self.take("name")
        return self.declare(token, sort, block, self.has("*"), record)

    def names(self, sort, block, record=None):
        found = [self.identdef(sort, block, record)]
        while self.has(","):
            found.append(self.identdef(sort, block, record))
        return found

    def use(self, block):
        token = self.take("name")
        self.uses[token] = block
        return token

    def qualident(self, block):
        head, member = self.use(block), None
        if self.has("."):
            member = self.take("name")
            self.members[member] = head
        return head, member

    def module(self):
        self.take("MODULE")
        self.name = self.take("name")
        self.take(";")
        self.block = Block(None)
        if self.has("IMPORT"):
            while True:
                alias = self.take("name")
                named = self.take("name") if self.has(":=") else alias
                self.declare(alias, "import", self.block)
                self.imports.append((alias, named))
                if not self.has(","):
                    break
            self.take(";")
        self.declarations(self.block)
        if self.has("BEGIN"):
            self.statements(self.block)
        self.take("END")
        self.ends[self.take("name")] = None
        self.take(".")
        assert self.at == len(self.tokens)
        self.decls.sort(key=lambda it: it.token)

    def declarations(self, block):
        if self.has("CONST"):
            while self.peek() == "name":
                decl = self.identdef("constant", block)
                self.take("=")
                self.expression(block)
                self.end(decl.token, [decl])
                self.take(";")
        if self.has("TYPE"):
            while self.peek() == "name":
                decl = self.identdef("type", block)
                self.take("=")
                decl.form = self.form(block, decl)
                self.end(decl.token, [decl])
                self.take(";")
        if self.has("VAR"):
            while self.peek() == "name":
                self.variables("variable", block, None)
                self.take(";")
        while self.peek() == "PROCEDURE":
            self.procedure(block)
            self.take(";")

    def variables(self, sort, block, record):
        found = self.names(sort, block, record)
        self.take(":")
        form = self.form(block, found[0])
        for it in found:
            it.form = form
        self.end(found[0].token, found)

    def procedure(self, outer):
        first = self.at
        self.take("PROCEDURE")
        decl = self.identdef("procedure", outer)
        block = Block(outer)
        if self.peek() == "(":
            self.parameters(block)
        self.take(";")
        self.declarations(block)
        if self.has("BEGIN"):
            self.statements(block)
        if self.has("RETURN"):
            self.expression(block)
        self.take("END")
        self.ends[self.take("name")] = decl
        self.end(first, [decl])

    def parameters(self, block):
        self.take("(")
        if self.peek() != ")":
            while True:
                first = self.at
                self.has("VAR")
                found = [self.declare(self.take("name"), "parameter", block)]
                while self.has(","):
                    found.append(self.declare(self.take("name"), "parameter", block))
                self.take(":")
                opened = 0
                while self.has("ARRAY"):
                    self.take("OF")
                    opened += 1
                form = ("name", *self.qualident(block))
                for _ in range(opened):
                    form = ("array", form)
                for it in found:
                    it.form = form
                self.end(first, found)
                if not self.has(";"):
                    break
        self.take(")")
        if self.has(":"):
            self.qualident(block)

    def form(self, block, owner):
        if self.has("ARRAY"):
            count = self.list(block)
            self.take("OF")
            form = self.form(block, owner)
            for _ in range(count):
                form = ("array", form)
            return form
        if self.has("POINTER"):
            self.take("TO")
            target = self.form(block, owner)
            if target[0] == "name" and target[2] is None:
                self.targets_of_pointers.add(target[1])
            return ("pointer", target)
        if self.has("RECORD"):
            record = Record(owner, block)
            if self.has("("):
                record.base = self.qualident(block)
                self.take(")")
            while self.peek() == "name":
                self.variables("field", block, record)
                if not self.has(";"):
                    break
            self.take("END")
            return ("record", record)
        if self.has("PROCEDURE"):
            if self.peek() == "(":
                self.parameters(Block(block))
            return ("procedure",)
        return ("name", *self.qualident(block))

    def statements(self, block):
        self.statement(block)
        while self.has(";"):
            self.statement(block)

    def statement(self, block):
        kind = self.peek()
        if kind == "name":
            place = len(self.designators)
            found = self.designator(block)
            if self.has(":="):
                self.designators[place] = (*found[:2], True)
                self.expression(block)
        elif kind in ("IF", "WHILE"):
            self.take(kind)
            behind = "THEN" if kind == "IF" else "DO"
            self.expression(block)
            self.take(behind)
            self.statements(block)
            while self.has("ELSIF"):
                self.expression(block)
                self.take(behind)
                self.statements(block)
            if kind == "IF" and self.has("ELSE"):
                self.statements(block)
            self.take("END")
        elif self.has("CASE"):
            self.expression(block)
            self.take("OF")
            self.case(block)
            while self.has("|"):
                self.case(block)
            self.take("END")
        elif self.has("REPEAT"):
            self.statements(block)
            self.take("UNTIL")
            self.expression(block)
        elif self.has("FOR"):
            self.designators.append((self.use(block), [], True))
            self.take(":=")
            self.expression(block)
            self.take("TO")
            self.expression(block)
            if self.has("BY"):
                self.expression(block)
            self.take("DO")
            self.statements(block)
            self.take("END")

    def case(self, block):
        if self.peek() in ("|", "END"):
            return
        while True:
            self.label(block)
            if self.has(".."):
                self.label(block)
            if not self.has(","):
                break
        self.take(":")
        self.statements(block)

    def label(self, block):
        if self.peek() == "name":
            self.qualident(block)
        else:
            self.take("number", "text")

    def list(self, block):
        count = 1
        self.expression(block)
        while self.has(","):
            self.expression(block)
            count += 1
        return count

    def expression(self, block):
        """Reads an expression, and gives its designator if it is one alone."""
        alone = self.simple(block)
        if self.peek() in ("=", "#", "<", "<=", ">", ">=", "IN", "IS"):
            self.at += 1
            self.simple(block)
            return None
        return alone

    def simple(self, block):
        signed = self.has("+") or self.has("-")
        alone = self.term(block)
        while self.peek() in ("+", "-", "OR"):
            self.at += 1
            self.term(block)
            alone = None
        return None if signed else alone

    def term(self, block):
        alone = self.factor(block)
        while self.peek() in ("*", "/", "DIV", "MOD", "&"):
            self.at += 1
            self.factor(block)
            alone = None
        return alone

    def factor(self, block):
        if self.peek() == "name":
            return self.designator(block)
        if self.has("("):
            self.expression(block)
            self.take(")")
        elif self.has("~"):
            self.factor(block)
        elif self.has("{"):
            if self.peek() != "}":
                while True:
                    self.expression(block)
                    if self.has(".."):
                        self.expression(block)
                    if not self.has(","):
                        break
            self.take("}")
        else:
            self.take("number", "real", "text", "NIL", "TRUE", "FALSE")
        return None

    def designator(self, block):
        """Reads a designator. Its selectors are ('.', token), ('[', how many), ('^',) and ('(', the lone designator or none)."""
        head, steps, place = self.use(block), [], len(self.designators)
        self.designators.append(None)
        while True:
            if self.has("."):
                steps.append((".", self.take("name")))
            elif self.has("["):
                steps.append(("[", self.list(block)))
                self.take("]")
            elif self.has("^"):
                steps.append(("^",))
            elif self.has("("):
                lone = None
                if self.peek() != ")":
                    lone = self.expression(block)
                    while self.has(","):
                        self.expression(block)
                        lone = None
                self.take(")")
                steps.append(("(", lone))
            else:
                break
        self.designators[place] = (head, steps, False)
        return self.designators[place]

    # ---- scopes

    def resolve(self, token):
        """What an identifier that is looked up means: a declaration, or none."""
        name, block = self.word(token), self.uses[token]
        own = block
        while block:
            for decl in block.declared:
                if self.word(decl.token) == name and decl.token < token:
                    return decl
            block = block.outer
        if token in self.targets_of_pointers:
            for decl in own.declared:
                if self.word(decl.token) == name and decl.sort == "type":
                    return decl
        return None

    def place(self, offset):
        line = bisect.bisect_right(self.line_starts, offset) - 1
        return line, offset - self.line_starts[line]


class Tree:
    def __init__(self, files):
        """Files are pairs of a path and bytes."""
        self.modules = [Module(path, data) for path, data in sorted(files, key=lambda it: it[0].encode())]
        self.by_name = {it.word(it.name): it for it in self.modules}
        for it in self.modules:
            it.alias = {alias: it.word(named) for alias, named in it.imports}

    # ---- targets: ('decl', d), ('module', name), ('external', module, name), 'predeclared', 'unresolved'

    def head(self, m, token):
        decl = m.resolve(token)
        if decl is None:
            return "predeclared" if m.word(token) in PREDECLARED else "unresolved"
        return ("module", m.alias[decl.token]) if decl.sort == "import" else ("decl", decl)

    def qualified(self, name, member):
        """What a name behind the alias of a module means."""
        other = self.by_name.get(name)
        if other is None:
            return ("external", name, member)
        for decl in other.block.declared:
            if other.word(decl.token) == member and decl.star and decl.sort != "import":
                return ("decl", decl)
        return "unresolved"

    def named(self, m, head, member):
        """The target of a qualident as a whole."""
        first = self.head(m, head)
        if member is None:
            return first
        return self.qualified(first[1], m.word(member)) if first[0] == "module" else "unresolved"

    # ---- types: (module, form)

    def open(self, kind, met):
        """Follows names through declarations of types to a form, or gives none."""
        while kind and kind[1][0] in ("name", "declared"):
            target = ("decl", kind[1][1]) if kind[1][0] == "declared" else self.named(kind[0], kind[1][1], kind[1][2])
            if target[0] != "decl" or target[1].sort != "type" or target[1] in met:
                return None
            met.add(target[1])
            kind = (target[1].module, target[1].form)
        return kind

    def field(self, m, kind, name):
        met = set()
        kind = self.open(kind, met)
        while kind:
            home, form = kind
            if form[0] == "pointer":
                kind = self.open((home, form[1]), met)
                continue
            if form[0] != "record":
                return None
            for decl in form[1].fields:
                if home.word(decl.token) == name and (home is m or decl.star):
                    return decl
            if form[1].base is None:
                return None
            kind = self.open((home, ("name", *form[1].base)), met)
        return None

    def step(self, kind, want):
        kind = self.open(kind, set())
        return (kind[0], kind[1][1]) if kind and kind[1][0] == want else None

    def type_of(self, target):
        """The declared type of a variable, parameter or field."""
        if target[0] == "decl" and target[1].sort in ("variable", "parameter", "field"):
            return (target[1].module, target[1].form)
        return None

    def guard(self, m, lone):
        """The type that a lone name between parentheses means, if it means one."""
        if lone is None:
            return None
        head, steps, _ = lone
        if not steps:
            target = self.head(m, head)
        elif len(steps) == 1 and steps[0][0] == ".":
            target = self.named(m, head, steps[0][1])
        else:
            return None
        if target[0] == "decl" and target[1].sort == "type":
            decl = target[1]
            # the declaration itself is what is opened first
            return (decl.module, ("declared", decl))
        return None

    def references(self, m):
        """Of each identifier its target and role, by token."""
        found = {m.name: (("module", m.word(m.name)), 1)}
        for decl in m.decls:
            if decl.sort != "import":
                found[decl.token] = (("decl", decl), 1)
        for alias, named in m.imports:
            found[alias] = found[named] = (("module", m.word(named)), 2)
        for token, decl in m.ends.items():
            found[token] = (("decl", decl) if decl else ("module", m.word(m.name)), 0)
        role = lambda target, last: 0 if self.type_of(target) is None else 4 if last else 8
        for token in m.uses:
            target = self.head(m, token)
            found[token] = (target, role(target, False))
        for member, head in m.members.items():
            target = self.named(m, head, member)
            found[member] = (target, role(target, False))
        for head, steps, is_left in m.designators:
            names = [head] + [it[1] for it in steps if it[0] == "."]
            target = self.head(m, head)
            found[head] = (target, role(target, is_left and names[-1] == head))
            kind = self.type_of(target)
            for at, it in enumerate(steps):
                if it[0] == ".":
                    if at == 0 and target[0] == "module":
                        target = self.qualified(target[1], m.word(it[1]))
                    else:
                        decl = self.field(m, kind, m.word(it[1])) if kind else None
                        target = ("decl", decl) if decl else "unresolved"
                    kind = self.type_of(target)
                    found[it[1]] = (target, role(target, is_left and names[-1] == it[1]))
                elif it[0] == "[":
                    for _ in range(it[1]):
                        kind = self.step(kind, "array") if kind else None
                elif it[0] == "^":
                    kind = self.step(kind, "pointer") if kind else None
                else:
                    kind = self.guard(m, it[1])
        return found

    # ---- symbols

    def descriptors(self, decl):
        m = decl.module
        name = m.word(decl.token)
        if decl.record:
            return self.descriptors(decl.record.owner) + name + "."
        return m.word(m.name) + "/" + name + {"type": "#", "procedure": "()."}.get(decl.sort, ".")

    def symbol(self, target, package):
        def text(descriptors, package):
            doubled = package.replace(" ", "  ") or "."
            return f"scip-oberon . {doubled} . {descriptors}"

        if target[0] == "decl":
            decl = target[1]
            if decl.block is not decl.module.block:
                others = [it for it in decl.module.decls if it.block is not decl.module.block]
                return f"local {others.index(decl)}"
            return text(self.descriptors(decl), package)
        if target[0] == "module":
            return text(target[1] + "/", package if target[1] in self.by_name else "")
        return text(f"{target[1]}/{target[2]}.", "")

    # ---- the index

    def span(self, m, first, behind):
        (line, column), (last, end) = m.place(m.tokens[first].start), m.place(m.tokens[behind].end)
        return b"".join(map(varint, [line, column, end] if line == last else [line, column, last, end]))

    def whole(self, m, target):
        return target[1].whole if target[0] == "decl" else (0, len(m.tokens) - 1)

    def document(self, m, package):
        found, symbols = b"", b""
        texts = {}
        for token, (target, role) in sorted(self.references(m).items()):
            if target in ("predeclared", "unresolved"):
                continue
            key = target if target[0] != "decl" else target[1]
            text = texts.get(key) or texts.setdefault(key, self.symbol(target, package))
            enclosing = part(7, self.span(m, *self.whole(m, target))) if role == 1 else b""
            found += part(2, part(1, self.span(m, token, token)) + part(2, text.encode()) + number(3, role) + enclosing)
            if role == 1:
                symbols += part(3, part(1, text.encode()) + part(6, m.word(token).encode()))
        return part(1, m.path.encode()) + found + symbols + part(4, b"Oberon") + number(6, 1)

    def externals(self, package):
        found = {}
        for m in self.modules:
            for target, _ in self.references(m).values():
                if target[0] == "external" or target[0] == "module" and target[1] not in self.by_name:
                    found[self.symbol(target, package)] = target[-1]
        return [(it, found[it]) for it in sorted(found)]

    def index(self, package="", root=""):
        metadata = part(2, part(1, TOOL.encode()) + part(2, b"1")) + (part(3, root.encode()) if root else b"") + number(4, 1)
        documents = b"".join(part(2, self.document(m, package)) for m in self.modules)
        return part(1, metadata) + documents + b"".join(part(3, part(1, text.encode()) + part(6, name.encode())) for text, name in self.externals(package))

    def unresolved(self):
        lines = []
        for m in self.modules:
            for token, (target, _) in sorted(self.references(m).items()):
                if target == "unresolved":
                    lines.append("%s:%d:%d %s\n" % (m.path, *m.place(m.tokens[token].start), m.word(token)))
        return "".join(lines)


def varint(n):
    out = b""
    while n > 127:
        out, n = out + bytes([n % 128 + 128]), n // 128
    return out + bytes([n])


def part(field, data):
    return varint(field * 8 + 2) + varint(len(data)) + data


def number(field, n):
    return varint(field * 8) + varint(n) if n else b""


def files_below(folder):
    found = []
    for at, _, names in os.walk(folder, followlinks=True):
        for name in names:
            if name.endswith((".Mod", ".mod")):
                path = f"{at}/{name}"
                with open(path, "rb") as it:
                    found.append((os.path.relpath(path, folder), it.read()))
    return found


def main(words):
    tree = Tree(files_below(words[1]))
    if words[0] == "index":
        sys.stdout.buffer.write(tree.index(*words[2:]))
    else:
        sys.stdout.write(tree.unresolved())


if __name__ == "__main__":
    main(sys.argv[1:])
