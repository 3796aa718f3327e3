#!/usr/bin/env python3
"""reach.py ROOT CRATE.MODULE.NAME..: the lines of definitions that these definitions reach, module by module"""
import os
import re
import sys

WORD = re.compile(r"[^\s(){},;.λ∀→\[\]\"]+")
HEAD = re.compile(r"^(?:abbrev |pub |data |record )+")


def flat(text):
    """the lines of a module, those of mutual blocks and of unnamed modules moved to the margin, also where one is inside the other"""
    margin = 0
    for line in text.split("\n"):
        if line.strip() and len(line) - len(line.lstrip(" ")) < margin:
            margin = 2 if margin == 4 and line.startswith("  ") else 0
        line = line.removeprefix(" " * margin)
        if line in ("mutual", "abbrev mutual") or line.startswith("module _"):
            margin += 2
            continue
        yield line


class Module:
    def __init__(self, text):
        self.names, self.aliases, self.lines, self.owners = {}, {}, {}, {}
        current = None
        for line in flat(text):
            if line.startswith("use "):
                self.take(line)
            elif line.startswith("--"):
                current = None
            elif line.strip():
                word = re.match(r"[^\s:({]*", HEAD.sub("", line))[0]
                if line[0] != " " and (HEAD.match(line) or word in self.lines):
                    current = word
                self.lines.setdefault(current, []).append(line)
        for name, lines in self.lines.items():
            if re.search(r"\b(data|record)\b", lines[0]):
                for part in re.findall(r"(?m)^\s+(?:pub )?(\S+) :", "\n".join(lines[1:])):
                    self.owners[part] = name

    def take(self, line):
        if listed := re.match(r"use (Rattle\.\S+?)\.\{(.*)\}$", line):
            for it in listed[2].split(","):
                name, _, own = it.strip().partition(" as ")
                self.names[(own or name).strip("◌")] = (listed[1], name)
        elif named := re.match(r"use (Rattle\.\S+) as (\S+)$", line):
            self.aliases[named[2]] = named[1]


modules = {}
root, starts = sys.argv[1], sys.argv[2:]
for crate in os.listdir(f"{root}/crates"):
    base = f"{root}/crates/{crate}/specs"
    for at, _, files in os.walk(base):
        for file in files:
            if file.endswith(".antt") and file != "Lib.antt":
                path = os.path.relpath(f"{at}/{file}", base)[:-5].replace("/", ".")
                modules[f"Rattle.{crate}.specs.{path}"] = Module(open(f"{at}/{file}", encoding="utf-8").read())
reached, todo = set(), []


def reach(module, name):
    if module in modules:
        here = modules[module]
        found = next((it for it in (name, f"◌{name}◌", here.owners.get(name)) if it in here.lines), None)
        if found and (module, found) not in reached:
            reached.add((module, found))
            todo.append((module, found))


for it in starts:
    crate, rest = it.split(".", 1)
    reach(f"Rattle.{crate}.specs.{rest.rpartition('.')[0]}", rest.rpartition(".")[2])
while todo:
    at, name = todo.pop()
    here, text = modules[at], "\n".join(modules[at].lines[name])
    for word in set(WORD.findall(text)):
        reach(*here.names.get(word, (at, word)))
    for alias, word in re.findall(r"([\w']+)\.([\w'-]+)", text):
        if alias in here.aliases:
            reach(here.aliases[alias], word)
counts = {}
for at, name in reached:
    counts[at] = counts.get(at, 0) + len(modules[at].lines[name])
for at in sorted(counts):
    print(counts[at], at.removeprefix("Rattle."))
print("lines:", sum(counts.values()), "modules:", len(counts))
