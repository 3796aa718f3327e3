#!/usr/bin/env python3
"""kept.py CLONE [CRATE..]: links into CLONE the libraries that runs of the gate on this machine kept of the same texts, but for these crates. A
library of another build, or half of one, that stands in CLONE wants `rm -rf crates/*/out/rlib` first: libraries of two builds do not mix."""
import os
import shutil
import sys

from rtkit import KEPT, crates, is_kept, put, rt

known = crates(os.path.realpath(sys.argv[1]))
kept, given = rt.Kept(known) if hasattr(rt, "Kept") else None, {}


def give(crate):
    """Links the library of a crate, if it was kept; some kits keep what they proved, for the others gate.py does."""
    if kept:
        return kept.give(crate, False, kept.key(crate))
    folder = f"{KEPT}/{crate.name}-proof-{crate.stamp()[:24]}"
    if is_kept(folder):
        put(f"{folder}/rlib", f"{crate.folder}/out/rlib")
    return is_kept(folder)


for it in known:
    if it.is_program or it.name in sys.argv[2:] or not all(given.get(below.name) for below in it.deps):
        continue
    stamp, is_there = f"{it.folder}/out/rlib/stamp", it.is_built()
    if not is_there:
        shutil.rmtree(f"{it.folder}/out/rlib", ignore_errors=True)
    given[it.name] = is_there or give(it)
    if given[it.name] and kept:
        kept.is_built(it)
    if given[it.name] and not is_there:
        with open(stamp, "w", encoding="utf-8") as file:
            file.write(it.stamp())
        print(it.name)
