#!/usr/bin/env python3
"""check.py ROOT LANES CRATE[:tests]..: checks crates, or their tests, from nothing over the libraries that stand in ROOT, side by side"""
import copy
import os
import sys
import time
from concurrent.futures import ThreadPoolExecutor

from rtkit import crates, rtlib

known = {it.name: it for it in crates(os.path.realpath(sys.argv[1]))}


def one(asked):
    name, _, tests = asked.partition(":")
    crate, began = copy.copy(known[name]), time.time()
    os.makedirs(f"{crate.folder}/out", exist_ok=True)
    log = f"{crate.folder}/out/check{'-tests' if tests else ''}.log"
    with open(log, "w+", errors="replace") as crate.out:
        words = crate.words(["--jobs", "1"], tests=bool(tests), keeps=False)
        status = crate.call(rtlib.RATTLE, "check", *words, "--empty-contracts")
    print(f"{asked}: {'FAILED, see ' + log if status else 'ok'} {time.time() - began:.0f}s", flush=True)


with ThreadPoolExecutor(int(sys.argv[2])) as pool:
    list(pool.map(one, sys.argv[3:]))
