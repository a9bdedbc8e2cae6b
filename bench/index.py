"""Compares index and unresolved with a plain indexer (indexer.py) on small random trees, on a tenth as many in which types lead on
through many modules, and on a folder.

index.py PROGRAM SEED CASES [FOLDER]
"""
import os
import subprocess
import sys
import tempfile

sys.dont_write_bytecode = True
import index_trees
import indexer

WORKERS = ("1", "2", "8")


def said(words):
    ran = subprocess.run(words, capture_output=True)
    assert ran.returncode == 0 and not ran.stderr, (words, ran)
    return ran.stdout


def compare(program, folder, files, what):
    tree = indexer.Tree(files)
    wanted = tree.index("a package", "file:///root")
    for workers in WORKERS:
        out = f"{folder}.scip"
        said([program, "index", "--workers", workers, "--package", "a package", "--root", "file:///root", folder, out])
        with open(out, "rb") as it:
            assert it.read() == wanted, f"{what}: the index by {workers} workers is another"
    assert said([program, "unresolved", folder]) == tree.unresolved().encode(), f"{what}: other identifiers stand for nothing"
    return len(wanted)


def main(program, seed, cases, folder=None):
    size = 0
    with tempfile.TemporaryDirectory() as room:
        if folder:
            size += compare(program, os.path.abspath(folder), indexer.files_below(folder), folder)
        first, count = int(seed), int(cases)
        trees = [(f"tree {it}", index_trees.Tree, it) for it in range(first, first + count)]
        trees += [(f"chains {it}", index_trees.Chains, it) for it in range(first, first + count // 10)]
        for what, made, case in trees:
            files = made(case).files()
            for path, data in files:
                to = f"{room}/{what}/{path}"
                os.makedirs(os.path.dirname(to), exist_ok=True)
                with open(to, "wb") as it:
                    it.write(data)
            size += compare(program, f"{room}/{what}", files, what)
    print(f"{len(trees)} trees, {size} bytes of indexes: each is the plain indexer's, by {', '.join(WORKERS)} workers")


if __name__ == "__main__":
    main(*sys.argv[1:])
