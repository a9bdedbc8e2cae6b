#!/usr/bin/env python3
"""An index as another producer than this program would make it: bench/foreign.py [write]

Without a word it compares what it makes with the files that are there: examples/foreign.scip, and examples/foreign.txt, which is
the same in the text format of Protocol Buffers. With `write` it writes them.

The fields are those of scip.proto (github.com/sourcegraph/scip), put down anew. Columns are in units of UTF-16, which the documents
declare.
"""
import os
import sys

ROOT = os.path.dirname(os.path.dirname(os.path.abspath(__file__)))
PACKAGE = "scip-typescript npm pages 1.4.0 "
DEFINITION, IMPORT, WRITE, READ = 1, 2, 4, 8

BUFFER = """/** A line of text. */
export class Line {
  constructor(readonly text: string) {}
  width(): number {
    const units = this.text.length;
    return units;
  }
}
export const EMPTY = new Line("");
"""

VIEW = """import { EMPTY, Line } from "./buffer";
export function widest(lines: Line[]): number {
  let best = EMPTY.width();
  for (const line of lines) {
    /* \U0001F642 */ best = Math.max(best, line.width());
  }
  return best;
}
"""

# Symbols, as this producer spells them.
LINE = PACKAGE + "src/`buffer.ts`/Line#"
TEXT = LINE + "text."
WIDTH = LINE + "width()."
EMPTY = PACKAGE + "src/`buffer.ts`/EMPTY."
FILE = PACKAGE + "src/`buffer.ts`/"
WIDEST = PACKAGE + "src/`view.ts`/widest()."
LINES = WIDEST + "(lines)"
MAX = "scip-typescript npm typescript 5.4.5 lib/`lib.es5.d.ts`/Math#max()."


def varint(number):
    """A number in groups of seven bits, the lowest first; one below 0 as 64 bits."""
    number %= 2**64
    out = b""
    while number >= 128:
        out += bytes([number % 128 + 128])
        number //= 128
    return out + bytes([number])


def payload(number, content):
    return varint(8 * number + 2) + varint(len(content)) + content


def bytes_of(message):
    """A message is a list of fields: name, number, value. Lists of numbers are packed."""
    out = b""
    for _, number, value in message:
        if isinstance(value, bool) or isinstance(value, int):
            out += varint(8 * number) + varint(int(value))
        elif isinstance(value, str):
            out += payload(number, value.encode())
        elif isinstance(value, tuple):
            out += payload(number, b"".join(varint(it) for it in value))
        else:
            out += payload(number, bytes_of(value))
    return out


def quoted(text):
    out = ""
    for byte in text.encode():
        if byte == 10:
            out += "\\n"
        elif byte in b"\"\\":
            out += "\\" + chr(byte)
        elif 32 <= byte < 127:
            out += chr(byte)
        else:
            out += f"\\{byte:03o}"
    return f'"{out}"'


def text_of(message, depth=0):
    """The message in the text format, a line a field."""
    out, pad = "", "  " * depth
    for name, _, value in message:
        if isinstance(value, bool):
            out += f"{pad}{name}: {'true' if value else 'false'}\n"
        elif isinstance(value, int):
            out += f"{pad}{name}: {value}\n"
        elif isinstance(value, str):
            out += f"{pad}{name}: {quoted(value)}\n"
        elif isinstance(value, tuple):
            out += "".join(f"{pad}{name}: {it}\n" for it in value)
        else:
            out += f"{pad}{name} {{\n{text_of(value, depth + 1)}{pad}}}\n"
    return out


def units(text):
    return len(text.encode("utf-16-le")) // 2


def at(source, line, word, nth=0):
    """The range of the word where it stands for the nth time in a line, from 0, with columns in units of UTF-16."""
    text, place = source.split("\n")[line], -1
    for _ in range(nth + 1):
        place = text.index(word, place + 1)
    return (line, units(text[:place]), units(text[: place + len(word)]))


def occurrence(where, symbol, roles=0, kind=0, enclosing=None, others=()):
    message = [("range", 1, where), ("symbol", 2, symbol)]
    if roles:
        message.append(("symbol_roles", 3, roles))
    message += others
    if kind:
        message.append(("syntax_kind", 5, kind))
    if enclosing:
        message.append(("enclosing_range", 7, enclosing))
    return ("occurrences", 2, message)


def symbol(text, name, kind, documentation=(), relationships=(), enclosing=None, field=("symbols", 3)):
    message = [("symbol", 1, text)]
    message += [("documentation", 3, it) for it in documentation]
    message += [("relationships", 4, it) for it in relationships]
    message += [("kind", 5, kind), ("display_name", 6, name)]
    if enclosing:
        message.append(("enclosing_symbol", 8, enclosing))
    return (*field, message)


def buffer_document():
    unused = [("severity", 1, 4), ("code", 2, "6133"), ("message", 3, "'EMPTY' may be inlined."), ("source", 4, "tsserver")]
    return [
        ("relative_path", 1, "src/buffer.ts"),
        occurrence((0, 0, 0), FILE, DEFINITION),
        occurrence(at(BUFFER, 1, "Line"), LINE, DEFINITION, 19, (1, 0, 7, 1)),
        occurrence(at(BUFFER, 2, "text"), TEXT, DEFINITION, 6),
        occurrence(at(BUFFER, 3, "width"), WIDTH, DEFINITION, 16, (3, 2, 6, 3)),
        occurrence(at(BUFFER, 4, "units"), "local 1", DEFINITION | WRITE, 12),
        occurrence(at(BUFFER, 4, "text"), TEXT, READ, 6),
        occurrence(at(BUFFER, 5, "units"), "local 1", READ, 12),
        occurrence(at(BUFFER, 8, "EMPTY"), EMPTY, DEFINITION | WRITE, 9, None, [("diagnostics", 6, unused)]),
        occurrence(at(BUFFER, 8, "Line"), LINE, 0, 19),
        symbol(FILE, "buffer.ts", 29),
        symbol(LINE, "Line", 7, ["```ts\nclass Line\n```", "A line of text."], [[("symbol", 1, LINE), ("is_type_definition", 4, True)]]),
        symbol(TEXT, "text", 41, ["```ts\n(property) text: string\n```"], (), LINE),
        symbol(WIDTH, "width", 26, ["```ts\n(method) width(): number\n```"], (), LINE),
        symbol("local 1", "units", 61),
        symbol(EMPTY, "EMPTY", 61, (), [[("symbol", 1, LINE), ("is_type_definition", 4, True)]]),
        ("language", 4, "TypeScript"),
        ("text", 5, BUFFER),
        ("position_encoding", 6, 2),
    ]


def view_document():
    return [
        ("language", 4, "TypeScript"),
        ("relative_path", 1, "src/view.ts"),
        occurrence(at(VIEW, 0, "EMPTY"), EMPTY, IMPORT, 9),
        occurrence(at(VIEW, 0, "Line"), LINE, IMPORT, 19),
        occurrence(at(VIEW, 0, '"./buffer"'), FILE, IMPORT),
        occurrence(at(VIEW, 1, "widest"), WIDEST, DEFINITION, 16, (1, 0, 7, 1)),
        occurrence(at(VIEW, 1, "lines"), LINES, DEFINITION, 11),
        occurrence(at(VIEW, 1, "Line"), LINE, 0, 19),
        occurrence(at(VIEW, 2, "best"), "local 1", DEFINITION | WRITE, 12),
        occurrence(at(VIEW, 2, "EMPTY"), EMPTY, READ, 9),
        occurrence(at(VIEW, 2, "width"), WIDTH, READ, 15),
        occurrence(at(VIEW, 3, "line"), "local 2", DEFINITION | WRITE, 12),
        occurrence(at(VIEW, 3, "lines"), LINES, READ, 11),
        occurrence(at(VIEW, 4, "best"), "local 1", WRITE, 12),
        occurrence(at(VIEW, 4, "max"), MAX, READ, 15),
        occurrence(at(VIEW, 4, "best", 1), "local 1", READ, 12),
        occurrence(at(VIEW, 4, "line"), "local 2", READ, 12),
        occurrence(at(VIEW, 4, "width"), WIDTH, READ, 15),
        occurrence(at(VIEW, 6, "best"), "local 1", READ, 12),
        symbol(WIDEST, "widest", 17, ["```ts\nfunction widest(lines: Line[]): number\n```"]),
        symbol(LINES, "lines", 37, (), (), WIDEST),
        symbol("local 1", "best", 61),
        symbol("local 2", "line", 61),
        ("text", 5, VIEW),
        ("position_encoding", 6, 2),
    ]


def index():
    tool = [("name", 1, "scip-typescript"), ("version", 2, "0.3.14"), ("arguments", 3, "index"), ("arguments", 3, "--no-progress-bar")]
    metadata = [("tool_info", 2, tool), ("project_root", 3, "file:///srv/code/pages"), ("text_document_encoding", 4, 1)]
    outer = [[("symbol", 1, MAX[: -len("max().")]), ("is_reference", 2, True)]]
    return [
        ("metadata", 1, metadata),
        ("documents", 2, buffer_document()),
        ("documents", 2, view_document()),
        symbol(MAX, "max", 26, ["Returns the larger of a set of numbers."], outer, None, ("external_symbols", 3)),
    ]


def files():
    return {
        "examples/foreign.scip": bytes_of(index()),
        "examples/foreign.txt": text_of(index()).encode(),
    }


def main(words):
    same = True
    for path, content in files().items():
        if words == ["write"]:
            with open(f"{ROOT}/{path}", "wb") as file:
                file.write(content)
        elif not os.path.isfile(f"{ROOT}/{path}") or open(f"{ROOT}/{path}", "rb").read() != content:
            print(f"{path} is another")
            same = False
    return 0 if same else 1


if __name__ == "__main__":
    sys.exit(main(sys.argv[1:]))
