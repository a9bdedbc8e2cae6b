#!/usr/bin/env python3
"""Proves and builds a program of bench/ in a repository of its own: bench/own.py FOLDER timing|wire|workers

The repository is made in the folder, of copies of the crates that the program stands on; those that .ci/build or the tests' command
proved on this machine aren't proved again. The program is FOLDER/crates/NAME/out/NAME then.
"""
import os
import shutil
import sys

sys.dont_write_bytecode = True
HERE = os.path.dirname(os.path.realpath(__file__))
sys.path.insert(0, f"{HERE}/../.ci")
from crates import ROOT, copied, crates_of, proved

# What each program says in crates.txt.
PROGRAMS = {
    "timing": "timing: ob_scan ob_tree ob_walk module_table ob_parse table_reader ob_scope ob_types ob_resolve ob_emit ob_board scip_index",
    "wire": "wire: byte_sink proto_wire scip_index",
    "workers": "workers may_wait=3: cut_net cut_preflow cut_solve cut_plain",
}


def main(folder, name):
    crates, line = crates_of(), PROGRAMS[name]
    copied(ROOT, crates, [it for it in line.partition(":")[2].split() if it in crates], folder)
    with open(f"{folder}/crates.txt", "a", encoding="utf-8") as lines:
        print(line, file=lines)
    # `rt ci` refuses sources outside the crates, so those of bench/ have another ending
    for at, _, names in os.walk(f"{HERE}/{name}"):
        to = f"{folder}/crates/{os.path.relpath(at, HERE)}"
        os.makedirs(to)
        for it in names:
            shutil.copy(f"{at}/{it}", f"{to}/{it.removesuffix('.in')}")
    return proved(folder)[0]


if __name__ == "__main__":
    sys.exit(main(*sys.argv[1:]))
