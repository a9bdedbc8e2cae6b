"""Small trees of Oberon-07 modules in which names hide and miss one another, and trees in which types lead on through many modules, the
same for the same seed.

index_trees.py SEED FOLDER writes a small one.
"""
import os
import random
import sys

POOL = "a b f g x y S T R P Q u v n".split()
FIELDS = "f g x".split()


class Tree:
    def __init__(self, seed):
        self.chance, self.types_of = random.Random(seed), {}

    def pick(self, *items):
        return self.chance.choice(items)

    def odds(self, share):
        return self.chance.random() < share

    def names(self, taken, most=2, pool=POOL):
        """New names for one block or record, one at least where there is one."""
        free = [it for it in pool if it not in taken]
        found = self.chance.sample(free, min(len(free), self.chance.randint(1, most)))
        taken.update(found)
        return found

    def star(self):
        return "*" if self.odds(0.6) else ""

    def name(self):
        return self.pick(*POOL, *self.aliases, "INTEGER", "SET", "Z")

    def qualident(self):
        """A name of a type, more often than not."""
        if self.aliases and self.odds(0.3):
            alias = self.pick(*self.aliases)
            return f"{alias}.{self.pick(*(self.exported.get(alias) or POOL))}" if self.odds(0.8) else f"{alias}.{self.pick(*POOL)}"
        return self.pick(*self.types) if self.types and self.odds(0.7) else self.name()

    def form(self, depth=0):
        which = self.chance.random()
        if depth > 3 or which < 0.35:
            return self.qualident()
        if which < 0.5:
            return f"ARRAY {', '.join(self.expression() for _ in range(self.pick(1, 1, 2)))} OF {self.form(depth + 1)}"
        if which < 0.68:
            return f"POINTER TO {self.form(depth + 1)}"
        if which < 0.93:
            return self.record(depth)
        return f"PROCEDURE{self.parameters() if self.odds(0.8) else ''}"

    def record(self, depth):
        base = f" ({self.qualident()})" if self.odds(0.5) else ""
        taken, lists = set(), []
        for _ in range(self.pick(0, 1, 1, 2, 3)):
            found = self.names(taken, 2, FIELDS if self.odds(0.8) else POOL)
            if found:
                lists.append(f"{', '.join(it + self.star() for it in found)}: {self.form(depth + 1)}")
        closing = ";" if lists and self.odds(0.2) else ""
        return f"RECORD{base} {'; '.join(lists)}{closing} END"

    def parameters(self, taken=None):
        taken, sections = set() if taken is None else taken, []
        for _ in range(self.pick(0, 1, 2)):
            found = self.names(taken)
            if found:
                opened = "ARRAY OF " * self.pick(0, 0, 0, 1, 2)
                self.variables.extend(found)
                sections.append(f"{'VAR ' if self.odds(0.4) else ''}{', '.join(found)}: {opened}{self.qualident()}")
        result = f": {self.qualident()}" if self.odds(0.3) else ""
        return f"({'; '.join(sections)}){result}"

    def designator(self, depth=0):
        text = self.pick(*self.variables) if self.variables and self.odds(0.6) else self.name()
        while self.odds(0.6):
            which = self.chance.random()
            if which < 0.5:
                text += "." + self.pick(*(FIELDS if self.odds(0.8) else POOL))
            elif which < 0.65:
                text += f"[{', '.join(self.expression(depth + 1) for _ in range(self.pick(1, 1, 2)))}]"
            elif which < 0.78:
                text += "^"
            elif which < 0.93:
                text += f"({self.qualident()})"
            else:
                text += f"({', '.join(self.expression(depth + 1) for _ in range(self.pick(0, 1, 2)))})"
        return text

    def expression(self, depth=0):
        which = self.chance.random()
        if depth > 3 or which < 0.3:
            return self.pick("1", "0FH", '"A"', "2.5", "NIL", "TRUE")
        if which < 0.75:
            return self.designator(depth)
        if which < 0.8:
            return f"({self.expression(depth + 1)})"
        if which < 0.85:
            return f"~{self.designator(depth + 1)}"
        if which < 0.9:
            return f"{{{self.expression(depth + 1)} .. {self.expression(depth + 1)}}}"
        return f"{self.designator(depth + 1)} {self.pick('+', '=', 'DIV', 'IN', 'IS', 'OR', '<=', '&')} {self.designator(depth + 1)}"

    def statement(self, depth=0):
        which = self.chance.random()
        inner = lambda: self.statements(depth + 1)
        if depth > 2 or which < 0.5:
            return f"{self.designator()} := {self.expression()}"
        if which < 0.65:
            return self.designator()
        if which < 0.7:
            return ""
        if which < 0.77:
            return f"IF {self.expression()} THEN {inner()} ELSIF {self.expression()} THEN {inner()} ELSE {inner()} END"
        if which < 0.86:
            labels = ", ".join(self.pick("1", '"x"', self.qualident(), self.qualident() + " .. 3") for _ in range(self.pick(1, 2)))
            return f"CASE {self.expression()} OF {labels}: {inner()} | {self.pick('', self.qualident() + ': ' + inner())} END"
        if which < 0.9:
            return f"WHILE {self.expression()} DO {inner()} END"
        if which < 0.94:
            return f"REPEAT {inner()} UNTIL {self.expression()}"
        return f"FOR {self.name()} := {self.expression()} TO {self.expression()} BY 2 DO {inner()} END"

    def statements(self, depth=0):
        return "; ".join(self.statement(depth) for _ in range(self.pick(1, 1, 2, 3)))

    def section(self, word, taken, write):
        lines = []
        for _ in range(self.pick(0, 1, 2, 3)):
            found = self.names(taken)
            if found:
                lines.append(write(found) + "; ")
        return f"{word} {''.join(lines)}" if lines else ""

    def known(self, names, found, text):
        names.extend(found)
        return text

    def declarations(self, taken, depth):
        text = self.section("CONST", taken, lambda found: f"{found[0]}{self.star()} = {self.expression()}")
        text += self.section("TYPE", taken, lambda found: self.known(self.types, found[:1], f"{found[0]}{self.star()} = {self.form()}"))
        text += self.section("VAR", taken, lambda found: self.known(self.variables, found, f"{', '.join(it + self.star() for it in found)}: {self.form()}"))
        for _ in range(self.pick(0, 1, 2) if depth < 3 else 0):
            found = self.names(taken, 1)
            if found:
                text += self.procedure(found[0], depth) + "; "
        return text

    def procedure(self, name, depth):
        taken = set()
        head = f"PROCEDURE {name}{self.star()}{self.parameters(taken) if self.odds(0.7) else ''}; "
        body = self.declarations(taken, depth + 1)
        if self.odds(0.8):
            body += f"BEGIN {self.statements()} "
        if self.odds(0.3):
            body += f"RETURN {self.expression()} "
        return f"{head}{body}END {name}"

    def module(self, name, below):
        imports, taken = [], set()
        self.exported, self.types, self.variables = {}, [], []
        for _ in range(self.pick(0, 1, 2, 3)):
            alias = self.pick("A", "B", "C", "D", "K", "a", "T")
            if alias in taken:
                continue
            other = self.pick(*below, "Texts", "SYSTEM") if below else self.pick("Texts", "SYSTEM")
            if self.odds(0.5) and other not in taken:
                alias = other
                imports.append(other)
            else:
                imports.append(f"{alias} := {other}")
            taken.add(alias)
            self.exported[alias] = self.types_of.get(other)
        self.aliases = sorted(taken)
        text = f"MODULE {name}; "
        if imports:
            text += f"IMPORT {', '.join(imports)}; "
        text += self.declarations(taken, 0)
        if self.odds(0.7):
            text += f"BEGIN {self.statements()} "
        self.types_of[name] = self.types
        text += f"END {name}."
        return text.replace("; ", self.pick("; ", ";\n", ";\r\n", "; (* a *) "))

    def files(self):
        names = ["A", "B", "C", "D"][: self.pick(1, 2, 3, 4)]
        return [(f"{'sub/' if self.odds(0.3) else ''}{it}.Mod", self.module(it, names[:at]).encode()) for at, it in enumerate(names)]


class Chains(Tree):
    """Trees in which types lead on through up to 80 modules, or through up to 120 types of one: as bases, names, targets and elements."""

    # how often a type is a record, a name, a pointer and an array
    STYLES = (97, 0, 3, 0), (70, 20, 9, 1), (40, 55, 5, 0), (30, 5, 60, 5), (25, 25, 25, 25), (60, 39, 1, 0)

    def reference(self, own):
        """A name of a type, mostly of the last one, or of none."""
        if self.odds(self.wrong):
            return self.pick("SET", "Z", "v", "Texts.T", "X.T0", "K.T0", self.own_name, *own[:1])
        if own and (self.odds(0.9) or not self.imported):
            return own[-1] if self.odds(self.straight) else self.pick(*own)
        if not self.imported:
            return "SET"
        alias, types = self.imported[0] if self.odds(self.straight) else self.pick(*self.imported)
        return f"{alias}.{types[-1] if self.odds(self.straight) else self.pick(*types)}"

    def record_on(self, base):
        fields = [f"{it}{self.star()}: {self.pick('SET', base, base)}" for it in "fgxyab" if self.odds(self.own_fields)]
        return f"RECORD ({base}) {'; '.join(fields)} END"

    def led_on(self, own, later):
        """A type that leads on to another one, which may be one that is declared later."""
        to, which = self.reference(own), self.chance.choices("rnpa", self.style)[0]
        if which == "r":
            return self.record_on(to)
        if which == "p":
            return f"POINTER TO {later if self.odds(0.2) else self.record_on(to) if self.odds(0.3) else to}"
        return f"ARRAY {self.pick('2', '2, 3')} OF {to}" if which == "a" else to

    def chain(self, names, star):
        """Declarations of types of these names, each of which leads on."""
        forms = [self.led_on(names[:at], names[self.pick(-1, min(at + 1, len(names) - 1))]) for at in range(len(names))]
        return "TYPE " + "".join(f"{it}{star} = {form}; " for it, form in zip(names, forms))

    def use(self, variables):
        there = self.odds(0.3) and self.imported
        text = f"{self.pick(*self.imported)[0]}.{self.pick('v', 'w')}" if there else self.pick(*variables)
        for _ in range(self.pick(1, 1, 1, 2, 3, 5)):
            text += self.chance.choices([f".{self.pick(*'fgxyabh')}", "^", "[0]", f"({self.reference(['T0'])})"], [80, 10, 7, 3])[0]
        return text

    def uses(self, variables):
        return "BEGIN " + "; ".join(f"{self.use(variables)} := {self.use(variables)}" for _ in range(self.used))

    def led_module(self, name, imports, count):
        """A module with these imports, each an alias with the module's name, and so many types."""
        types, inner = [f"T{it}" for it in range(count)], [f"L{it}" for it in range(self.pick(1, 3, 40))]
        self.own_name, self.imported = name, [(alias, self.types_of[other]) for alias, other in imports if other in self.types_of]
        items = [other if alias == other else f"{alias} := {other}" for alias, other in imports]
        text = f"MODULE {name}; " + (f"IMPORT {', '.join(items)}; " if items else "")
        text += self.chain(types, "" if self.odds(self.wrong) else "*")
        made = self.record_on(self.reference(types)) if self.odds(0.3) else self.reference(types)
        text += f"VAR v*, w{self.star()}: {made}; u: {types[-1]}; t: {self.pick(*types)}; "
        if self.odds(0.2):
            text += f"PROCEDURE p; {self.chain(inner, '')}VAR l: {inner[-1]}; {self.uses('lv')} END p; "
        text += f"{self.uses('uuvt')} END {name}."
        self.types_of[name] = types
        return text.replace("; ", self.pick("; ", ";\n", ";\r\n", "; (* a *) "))

    def files(self):
        self.style, self.used = self.pick(*self.STYLES), self.pick(2, 4, 8)
        self.straight, self.wrong, self.own_fields = self.pick(0.8, 0.97, 1), self.pick(0, 0.003, 0.01), self.pick(0.003, 0.02, 0.1)
        is_tall = self.odds(0.3)
        names = [f"M{it}" for it in range(self.pick(2, 12, 40) if is_tall else self.chance.randint(33, 80))]
        paths, found = list(names), []
        for it in names, paths:
            if self.odds(0.6):
                self.chance.shuffle(it)
        for at, name in enumerate(names):
            imports = {}
            for other in [*names[max(0, at - 1) : at], *self.chance.sample(names[:at], min(at, self.pick(0, 0, 0, 1, 2))), "Texts"]:
                imports.setdefault(self.pick(other, other, "X", "K", self.pick(*names)), other)
            count = self.chance.randint(60, 120) if is_tall and at == 0 else self.pick(1, 1, 2, 4)
            found.append((f"{'sub/' if self.odds(0.1) else ''}{paths[at]}.Mod", self.led_module(name, list(imports.items()), count).encode()))
        return found


def main(seed, folder):
    for path, data in Tree(int(seed)).files():
        os.makedirs(os.path.dirname(f"{folder}/{path}"), exist_ok=True)
        with open(f"{folder}/{path}", "wb") as it:
            it.write(data)


if __name__ == "__main__":
    main(*sys.argv[1:])
