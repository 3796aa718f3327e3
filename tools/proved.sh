#!/usr/bin/env bash
# proved.sh: proves each library that the program needs, lowest first and one at a time, then `holp` itself, and builds crates/holp/out/holp.
# What stands already is not proved again. A library that fails ends it.
set -eu
command -v rt > /dev/null || { echo "proved.sh: the command rt of the Rattle kit is not found" >&2; exit 1; }
cd "$(dirname "$0")/.."
python3 - <<'P' | while read -r crate; do (cd "crates/$crate" && rt lib --jobs 1 < /dev/null); done
import re

below = {}
for line in open("crates.txt", encoding="utf-8"):
    if found := re.match(r"(\w+):(.*)", line):
        below[found[1]] = found[2].split()


def show(crate, shown):
    for it in below[crate]:
        if it in below and it not in shown:
            show(it, shown)
            print(it)
            shown.append(it)


show("holp", [])
P
cd crates/holp && rt run --jobs 1 -- --version
