#!/usr/bin/env python3
"""Counts the inferences of `HOST meson`: `inferences.py PROGRAM [PROBLEM ..]`.

It runs each problem of `library/tests/pelletier.hol` by itself under `valgrind --tool=callgrind`, and prints how often the
search met a subgoal (`hol_tactics_search::search::Search::close`), over all depths that it tried and all parts of the problem. PROGRAM
is a build of `holp` that keeps the names of its functions, as `tools/native.sh` makes it."""
import pathlib
import re
import subprocess
import sys
import tempfile

PROBLEMS = pathlib.Path(__file__).resolve().parent.parent / "library/tests/pelletier.hol"
COUNTED = "hol_tactics_search::search::Search::close"


def problems():
    """Each problem's name and its script, with the declarations before it."""
    declared, proof = [], []
    for command in PROBLEMS.read_text().split(";;"):
        word = (command.split() or [""])[0]
        if word in ("goal", "e", "save"):
            proof.append(command)
        elif word:
            declared.append(command)
        if word == "save":
            yield command.split()[1], ";;".join(declared + proof) + ";;"
            proof = []


def calls(counts):
    """How often the counted function was called. Callgrind gives a name once, beside a number that stands for it afterwards."""
    names, called, total = {}, None, 0
    for line in counts.open():
        if named := re.match(r"c?fn=(\(\d+\)) (.*)", line):
            names[named[1]] = named[2]
        if function := re.match(r"cfn=(\(\d+\))", line):
            called = names[function[1]]
        elif counted := re.match(r"calls=(\d+)", line):
            total += int(counted[1]) if called.startswith(COUNTED) else 0
    return total


def main():
    program, wanted = sys.argv[1], sys.argv[2:]
    with tempfile.TemporaryDirectory() as room:
        counts, script = pathlib.Path(room, "counts"), pathlib.Path(room, "script")
        for name, text in problems():
            if wanted and name not in wanted:
                continue
            script.write_text(text)
            valgrind = ["valgrind", "--tool=callgrind", f"--callgrind-out-file={counts}"]
            ran = subprocess.run(valgrind + [program, "run", script], capture_output=True, text=True, check=True)
            print(name, calls(counts) if "No subgoals" in ran.stdout else "not proved", flush=True)


main()
