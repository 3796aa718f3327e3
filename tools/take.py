#!/usr/bin/env python3
"""take.py FROM TO [CRATE..]: links the libraries that stand in the checkout FROM into the checkout TO, with TO's stamps, but for these crates

FROM is where a run of the gate has built them, or goes on building them, or where prove.py has. A library is taken where its text, and
the text of each library below, is the same in both; stand-ins, whose text never is, are taken as they are where FROM has a file `standins`."""
import filecmp
import os
import shutil
import sys

from rtkit import crates

source, to, left = os.path.realpath(sys.argv[1]), os.path.realpath(sys.argv[2]), {*sys.argv[3:]}
are_standins = os.path.exists(f"{source}/standins")


def files(folder):
    return sorted(os.path.relpath(f"{at}/{it}", folder) for at, _, names in os.walk(folder) for it in names)


def is_same(name):
    """Returns whether the crate's text is the same in both checkouts."""
    for part in ("src", "specs", "proofs"):
        one, other = f"{source}/crates/{name}/{part}", f"{to}/crates/{name}/{part}"
        names = files(one)
        if names != files(other) or filecmp.cmpfiles(one, other, names, shallow=False)[0] != names:
            return False
    return True


taken = {}
for it in crates(to):
    made, wanted = f"{source}/crates/{it.name}/out/rlib", f"{it.folder}/out/rlib"
    is_there = not it.is_program and it.name not in left and os.path.isfile(f"{made}/{it.name}.rlib/format")
    taken[it.name] = is_there and all(taken[below.name] for below in it.deps) and (are_standins or is_same(it.name))
    if not taken[it.name] or it.is_built():
        continue
    shutil.rmtree(wanted, ignore_errors=True)
    shutil.copytree(made, wanted, copy_function=os.link, ignore=shutil.ignore_patterns("stamp"))
    with open(f"{wanted}/stamp", "w", encoding="utf-8") as file:
        file.write(it.stamp())
    print(it.name)
