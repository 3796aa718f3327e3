#!/usr/bin/env python3
"""prove.py ROOT LANES [CRATE..]: builds the statements of these crates and of those below, side by side, each with the sum that rt asks for"""
import copy
import os
import shutil
import sys
import time

from rtkit import crates, rt, rtlib

root, lanes, names = os.path.realpath(sys.argv[1]), sys.argv[2], {*sys.argv[3:]}
os.environ["RT_JOBS"] = lanes
rtlib.Crate.cuts_libraries = True
found = crates(root)
for it in reversed(found):
    if it.name in names:
        names |= {below.name for below in it.below()}
found = [it for it in found if it.makes_rlib() and (it.name in names or not sys.argv[3:])]


def work(crate, given, jobs):
    if any(not given[it.name, "proof"] for it in crate.below()):
        return False
    if crate.is_built():
        return True
    stamp, crate, began = crate.stamp(), copy.copy(crate), time.time()
    shutil.rmtree(f"{crate.folder}/out/rlib", ignore_errors=True)
    os.makedirs(f"{crate.folder}/out/rlib")
    with open(f"{crate.folder}/out/prove.log", "w+", errors="replace") as crate.out:
        words = crate.words(["--jobs", str(jobs)], keeps=False)
        status = crate.call(rtlib.RATTLE, "build", *words, "--empty-contracts", "--statements", "-o", crate.rlib)
    if not status:
        with open(f"{crate.folder}/out/rlib/stamp", "w") as it:
            it.write(stamp)
    print(f"{crate.name}: {'FAILED' if status else 'ok'} {time.time() - began:.0f}s", flush=True)
    return not status


tasks = {}
for it in found:
    waits = [(below.name, "proof") for below in it.below()]
    tasks[it.name, "proof"] = (waits, it.count(rb"\n"), rt.need(it), lambda given, jobs, it=it: work(it, given, jobs))
print("not built:", *[key[0] for key, well in rt.in_lanes(tasks).items() if not well])
