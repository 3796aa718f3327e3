#!/usr/bin/env python3
"""starve.py PROGRAM [EACH]: refuses each allocation in turn, or each EACH-th, to small runs of a build of `holp`: a script is run, with its
log, messages, goals and records, and the log is checked, reviewed and migrated.

A run in which an allocation was refused ends by a status above 0, and what it wrote before the first `E1 Memory` is a front of what the run
wrote that was refused nothing. It may not end by a signal, nor by status 0 with other output. Status 1: one did. The program has to take
memory by the C library's `malloc` and `realloc`, as what native.sh builds does."""
import os
import subprocess
import sys
import tempfile

REFUSES = """
#include <stdio.h>
#include <stdlib.h>
void *__libc_malloc(size_t);
void *__libc_realloc(void *, size_t);
static long count, at;
__attribute__((constructor)) static void begin(void) { const char *it = getenv("STARVE_AT"); at = it ? atol(it) : 0; count = 0; }
__attribute__((destructor)) static void end(void) { const char *it = getenv("STARVE_COUNT"); FILE *to; if (it && (to = fopen(it, "w"))) { fprintf(to, "%ld", count); fclose(to); } }
void *malloc(size_t size) { return ++count == at ? NULL : __libc_malloc(size); }
void *realloc(void *old, size_t size) { return ++count == at ? NULL : __libc_realloc(old, size); }
"""
SCRIPT = """var p : bool ;; var q : bool ;; var f : A->A ;; var x : A ;;
newtype num ;; newconst zero : num ;; def twice = `\\g:A->A. \\y:A. g (g y)` ;;
thm a = ASSUME `p /\\ q` ;; thm b = CONJUNCT1 a ;; thm c = DISCH `p /\\ q` b ;; thm d = TAUT `p ==> q ==> p` ;;
thm e = REFL `f x` ;; thm g = INST [`q`, `p`] c ;; thm k = CONV (ONCE_DEPTH_CONV BETA_CONV) `(\\y:A. f y) x` ;;
goal `!z:A. p ==> p /\\ (f x = f x)` ;; e GEN_TAC THEN DISCH_TAC THEN CONJ_TAC ;; p ;; r 1 ;; e REFL_TAC ;; b ;; b ;; b ;;
e GEN_TAC THEN DISCH_TAC THEN CONJ_TAC THENL [ASSUMPTION_TAC; REFL_TAC] ;; save h ;; show h ;;
thm bad = CONJUNCT1 d ;; goal `zero = zero` ;; e REWRITE_TAC [d] ;;
"""
RUNS = ["run s.hol", "run s.hol --log new.log", "run s.hol --explain", "run s.hol --goals", "run s.hol --json", "check s.log", "check --theory s.log",
        "check --review s.log", "migrate s.log new.log"]


def started(words, room, refuses, at):
    for made in ("new.log", "count"):
        if os.path.exists(f"{room}/{made}"):
            os.remove(f"{room}/{made}")
    known = {"LD_PRELOAD": refuses, "STARVE_AT": str(at), "STARVE_COUNT": f"{room}/count"}
    return subprocess.run([program, *words], cwd=room, env=known, capture_output=True)


def is_wrong(ran, whole):
    """Returns what is wrong with a run in which an allocation was refused, if something is."""
    if ran.returncode < 0:
        return f"signal {-ran.returncode}"
    if ran.returncode == 0 and ran.stdout != whole.stdout:
        return "status 0, and other output"
    before = ran.stdout.split(b"E1 Memory")[0]
    front = before[: before.rfind(b"\n") + 1]
    return None if whole.stdout.startswith(front) else f"not a front: {front[-100:]!r}"


program, each = os.path.abspath(sys.argv[1]), int(sys.argv[2]) if len(sys.argv) > 2 else 1
missed = False
with tempfile.TemporaryDirectory() as room:
    with open(f"{room}/refuses.c", "w", encoding="utf-8") as file:
        file.write(REFUSES)
    with open(f"{room}/s.hol", "w", encoding="utf-8") as file:
        file.write(SCRIPT)
    subprocess.run(["cc", "-shared", "-fPIC", "-O1", "-fno-builtin", "-o", f"{room}/refuses.so", f"{room}/refuses.c"], check=True)
    subprocess.run([program, "run", "s.hol", "--log", "s.log"], cwd=room, capture_output=True)
    for line in RUNS:
        words = line.split()
        whole = started(words, room, f"{room}/refuses.so", 0)
        with open(f"{room}/count", encoding="utf-8") as file:
            count = int(file.read())
        wrong = {at: is_wrong(started(words, room, f"{room}/refuses.so", at), whole) for at in range(1, count + 1, each)}
        told = {at: it for at, it in wrong.items() if it}
        missed = missed or bool(told)
        print(f"{line}: {len(wrong)} of {count} allocations refused in turn, {len(told)} told", *(f"  {at}: {it}" for at, it in list(told.items())[:5]), sep="\n", flush=True)
sys.exit(missed)
