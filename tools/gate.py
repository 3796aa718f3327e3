#!/usr/bin/env python3
"""gate.py ROOT [CRATE..]: the gate over ROOT, or over these crates and those below, on a kit that keeps nothing from run to run

Its calls are those of `rt ci`, but each sum of sources is made once, and what was proved is kept by that sum in the folder KEPT, where
kept.py finds it. KEPT/log tells what is under way; the output of a proof that failed stands beside it. It gives no verdict: `rt ci` does.
Where crates are named, its last line counts the others as passed, though it has not looked at them."""
import fcntl
import hashlib
import os
import shutil
import sys
import time

from rtkit import KEPT, is_kept, put, remember, rt

root, names = os.path.realpath(sys.argv[1]), {*sys.argv[2:]}
own_ci, own_edits, own_lanes = rt.Crate.ci, rt.must_fail_all, rt.in_lanes


def tell(text):
    with open(f"{KEPT}/log", "a", encoding="utf-8") as log:
        log.write(f"{time.strftime('%H:%M:%S')} {text}\n")


def prove(crate, flags, tests):
    """Proves a crate, or its tests, unless that is kept. A run that meets a proof of the same text under way waits for it."""
    what = "tests" if tests else "proof"
    kept = f"{KEPT}/{crate.name}-{what}-{crate.stamp()[:24]}"
    with open(f"{kept}.lock", "w", encoding="utf-8") as lock:
        fcntl.flock(lock, fcntl.LOCK_EX)
        return proved(crate, flags, tests, what, kept)


def proved(crate, flags, tests, what, kept):
    made = [f"{crate.name}_tests"] if tests else [crate.name, f"{crate.name}.by-rattle"] if crate.is_program else ["rlib"]
    status = 0
    if is_kept(kept):
        for it in made:
            put(f"{kept}/{it}", f"{crate.folder}/out/{it}")
    else:
        began = time.time()
        tell(f"begin {crate.name} {what}")
        status = own_ci(crate, flags, tests)
        tell(f"{'FAILED' if status else 'ok'} {crate.name} {what} {time.time() - began:.0f}s")
        if status:
            crate.out.seek(0)
            with open(f"{KEPT}/FAILED-{crate.name}-{what}", "w", encoding="utf-8") as it:
                it.write(crate.out.read())
        else:
            shutil.rmtree(kept, ignore_errors=True)
            for it in made:
                put(f"{crate.folder}/out/{it}", f"{kept}/{it}")
            with open(f"{kept}/whole", "w", encoding="utf-8"):
                pass
    if not status and crate.makes_rlib() and not tests:
        with open(f"{crate.folder}/out/rlib/stamp", "w", encoding="utf-8") as it:
            it.write(crate.stamp())
    return status


def try_edits(crate, edits, flags):
    """Tries a crate's must-fail edits, unless their answers are kept."""
    texts = []
    for it in edits:
        with open(it, encoding="utf-8") as edit:
            texts.append(edit.read())
    kept = f"{KEPT}/{crate.name}-edits-{hashlib.sha256(repr((crate.stamp(), texts)).encode()).hexdigest()[:24]}"
    if os.path.exists(kept):
        with open(kept, encoding="utf-8") as it:
            return [(True, line) for line in it.read().split("\n")[:-1]]
    began = time.time()
    tell(f"begin {crate.name} edits")
    tried = own_edits(crate, edits, flags)
    is_well = all(refused for refused, _ in tried)
    tell(f"{'ok' if is_well else 'FAILED'} {crate.name} edits {time.time() - began:.0f}s")
    if is_well:
        with open(kept, "w", encoding="utf-8") as it:
            it.write("".join(line.replace("\n", " ") + "\n" for _, line in tried))
    return tried


def in_lanes(tasks):
    """Runs the tasks of the crates that were asked for and of those below."""
    wanted = {*names} or {name for name, _ in tasks}
    for name, kind in reversed([*tasks]):
        if name in wanted and kind == "proof":
            wanted |= {below for below, _ in tasks[name, kind][0]}
    given = {key: key[1] != "edits" or ([], [], []) for key in tasks if key[0] not in wanted}
    return {**given, **own_lanes({key: it for key, it in tasks.items() if key[0] in wanted})}


remember()
os.makedirs(KEPT, exist_ok=True)
rt.Crate.ci, rt.must_fail_all, rt.in_lanes = prove, try_edits, in_lanes
# (what stands in out/ is this run's own)
rt.put_back = lambda *_, **__: None
os.chdir(root)
sys.exit(rt.ci())
