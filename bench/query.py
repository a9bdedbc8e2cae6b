"""Large indexes as other producers would make them, with questions to them and what each has to print.

query.py STYLE DOCUMENTS OCCURRENCES INDEX ROWS [SYMBOLS]   writes the index, rows of a command, a path, a line, a column and an
                                                            answer, and the lines of its definitions

STYLE is typescript or java: the first declares columns in units of UTF-16, the second in bytes, with the words and the fields
that such producers use. The answers come from the numbers that the index is made of, and not from its bytes.
"""
import os
import random
import sys

sys.dont_write_bytecode = True
sys.path.insert(0, os.path.dirname(os.path.realpath(__file__)))
from foreign import DEFINITION, READ, bytes_of, occurrence, symbol, varint

ROWS = 40


def typescript(document, number):
    return f"scip-typescript npm pages 1.4.0 src/`part{document}.ts`/Line#field{number}."


def java(document, number):
    return f"scip-java maven com.example/pages 2.0-beta com/example/part{document}/Page#method{number}(+{number % 7})."


STYLES = {
    "typescript": ("scip-typescript", "0.3.14", "src/part{}.ts", "TypeScript", 2, typescript),
    "java": ("scip-java", "0.10.1", "src/main/java/com/example/Part{}.java", "java", 1, java),
}


def record(message):
    """The bytes of a field that is a message."""
    return bytes_of([message])


def document_of(style, at, count, draw):
    """The record of a document, and its occurrences: line, first column, last column, symbol, whether it defines."""
    _, _, path, language, encoding, name = STYLES[style]
    rows, parts = [], []
    for line in range(count):
        defines, column = line % 10 == 0, draw.randrange(60)
        where = at if defines else draw.randrange(at + 1)
        number = line // 10 if defines else draw.randrange((count + 9) // 10)
        is_local = number % 5 == 4
        text = f"local {number}" if is_local else name(where, number)
        rows.append((line, column, column + 5, text, defines))
        enclosing = (line, 0, line + 9, 1) if defines and not is_local else None
        parts.append(occurrence((line, column, column + 5), text, DEFINITION if defines else READ, 12, enclosing))
        if defines and not is_local:
            parts.append(symbol(text, f"name{number}", 26, [f"What {number} is for."], [[("symbol", 1, name(at, 0)), ("is_reference", 2, True)]]))
    fields = [("relative_path", 1, path.format(at)), *parts, ("language", 4, language), ("position_encoding", 6, encoding)]
    return record(("documents", 2, fields)), rows


def lines_of(path, rows):
    return [f"{path}:{line}:{first}-{line}:{last}" for line, first, last in rows]


def answers(style, documents):
    """The places of each symbol by whether they define it: those of a local one by document."""
    path, found = STYLES[style][2], {}
    for at, rows in enumerate(documents):
        for line, first, last, text, defines in rows:
            key = (at, text) if text.startswith("local ") else text
            found.setdefault((key, defines), []).extend(lines_of(path.format(at), [(line, first, last)]))
    return found


def definitions(style, documents):
    """A line for each definition of a symbol that isn't local."""
    path = STYLES[style][2]
    for at, rows in enumerate(documents):
        for line, first, last, text, defines in rows:
            if defines and not text.startswith("local "):
                yield f"{lines_of(path.format(at), [(line, first, last)])[0]} {text}\n"


def main(style, count, occurrences, index, told, symbols=None):
    draw = random.Random(18)
    tool, version, path, _, _, _ = STYLES[style]
    documents = []
    with open(index, "wb") as file:
        metadata = [("tool_info", 2, [("name", 1, tool), ("version", 2, version)]), ("project_root", 3, "file:///pages"), ("text_document_encoding", 4, 1)]
        file.write(record(("metadata", 1, metadata)))
        for at in range(count):
            content, rows = document_of(style, at, occurrences, draw)
            file.write(content)
            documents.append(rows)
        # what a later version of the format might add
        file.write(varint(8 * 99) + varint(7))
    if symbols is not None:
        with open(symbols, "w", encoding="utf-8") as file:
            file.writelines(definitions(style, documents))
    found = answers(style, documents)
    with open(told, "w", encoding="utf-8") as file:
        for _ in range(ROWS):
            at = draw.randrange(count)
            line, first, last, text, _ = draw.choice(documents[at])
            key = (at, text) if text.startswith("local ") else text
            for command, defines in (("def", True), ("refs", False)):
                answer = " ".join(found.get((key, defines), []))
                print(command, path.format(at), line, draw.randrange(first, last), answer, file=file)


if __name__ == "__main__":
    main(sys.argv[1], int(sys.argv[2]), int(sys.argv[3]), *sys.argv[4:])
