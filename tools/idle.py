#!/usr/bin/env python3
"""idle.py ROOT: lists the libraries that a crate's line in crates.txt names and its text does not"""
import os
import re
import sys

root = os.path.realpath(sys.argv[1])
with open(f"{root}/crates.txt", encoding="utf-8") as lines:
    below = {name: found.split() for name, found in (line.split(":") for line in lines if ":" in line)}


def text_of(name):
    found = []
    for part in ("src", "specs", "proofs"):
        for at, _, files in os.walk(f"{root}/crates/{name}/{part}"):
            for file in files:
                with open(f"{at}/{file}", encoding="utf-8") as it:
                    found.append(it.read())
    return "\n".join(found)


for name, line in below.items():
    text = text_of(name)
    idle = [it for it in line if it in below and not re.search(rf"\b{it}\b", text)]
    if idle:
        print(f"{name}: {', '.join(idle)}")
