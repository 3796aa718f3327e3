#!/usr/bin/env python3
"""cost.py ROOT [CRATE..]: what each function's transition system will weigh, in MB, reckoned from the code in the built libraries of ROOT
(out/rlib), with no proof: 2 % off for a crate's sum, up to 30 % for one function. Behind it: calls, of these drops and `?`, matches, literals."""
import collections
import glob
import json
import sys

WEIGHTS = {"Call": 51, "Assign": 40, "If": 52, "Switch": 145, "LendStatic": 53, "Return": -15}


def count(body, counts):
    if isinstance(body, str):
        counts[body] += 1
    elif isinstance(body, list):
        for part in body:
            count(part, counts)
    elif isinstance(body, dict):
        for kind, inner in body.items():
            counts[kind] += 1
            if kind == "Call":
                name = str(inner[0].get("Fn", [""])[0])
                counts["drop"] += name.endswith("::drop")
                counts["?"] += "Try::branch" in name
            elif kind != "Assign":
                count(inner, counts)


rows, sums = [], collections.Counter()
for path in sorted(glob.glob(f"{sys.argv[1]}/crates/*/out/rlib/*.rlib/toolchain/mir.json")):
    crate = path.split("/")[-6]
    if sys.argv[2:] and crate not in sys.argv[2:]:
        continue
    with open(path, encoding="utf-8") as file:
        functions = json.load(file)
    for name, function in functions:
        counts = collections.Counter()
        count(function["body"], counts)
        size = 212 + sum(weight * counts[kind] for kind, weight in WEIGHTS.items())
        sums[crate] += size
        rows.append((size, name, counts))
for crate, size in sums.most_common():
    print(f"{size / 1000:7.1f} {crate}")
for size, name, counts in sorted(rows, key=lambda row: -row[0])[:100]:
    print(f"{size / 1000:5.1f} {name}: " + " ".join(f"{kind} {counts[kind]}" for kind in ("Call", "drop", "?", "Switch", "LendStatic")))
