#!/usr/bin/env python3
"""edits.py LOG.. [--write]: compares where each must-fail edit was refused, as the output of `rt ci`, `rt must-fail` or judge.py in these files
tells it, with the table tools/edits.txt; with --write it writes what it found into the table.

An edit counts only if it is refused at the clause that it is for. The table has a line for each edit: CRATE/EDIT, and the file and the goal
or definition that fails first. A line that changes wants a look: has the clause moved, or does the edit fail elsewhere now?
Status 1: an edit is refused elsewhere than the table says, or only by a name or a limit."""
import os
import re
import sys

TABLE = os.path.join(os.path.dirname(os.path.abspath(__file__)), "edits.txt")
TOLD = re.compile(r"must-fail (\S+/\S+?\.(?:edit|md)): refused, as it must be(.*)$")


def place_of(said):
    """Returns the goal that failed, or the file and the name in which an answer did."""
    if said.startswith(" (only"):
        return said.split(":")[0].strip(" ()")[:100]
    goal = re.search(r"\(`([^`]+)`\)", said) or re.search(r"`([^`]+)`", said)
    file = re.search(r"((?:src|specs|proofs)/[^:\s]+)", said)
    return " ".join(it.group(1) for it in (file, goal) if it) or said.strip(": ")[:100] or "the borrow checker"


found = {}
for path in sys.argv[1:]:
    if path == "--write":
        continue
    with open(path, errors="replace") as log:
        for told in map(TOLD.search, log):
            if told:
                found[told.group(1)] = place_of(told.group(2))
kept = {}
if os.path.exists(TABLE):
    with open(TABLE) as table:
        kept = dict(line.rstrip("\n").split(": ", 1) for line in table)
if "--write" in sys.argv:
    kept.update(found)
    with open(TABLE, "w") as table:
        table.writelines(f"{name}: {place}\n" for name, place in sorted(kept.items()))
    sys.exit()
wrong = [f"{name}: {place}, and the table has {kept.get(name, 'no line')}" for name, place in sorted(found.items()) if kept.get(name) != place]
wrong += [f"{name}: {place}" for name, place in sorted(found.items()) if place.startswith("only") or place == "the borrow checker"]
print(*wrong, sep="\n")
sys.exit(bool(wrong))
