#!/usr/bin/env python3
"""plant.py ROOT CRATE [rt plant's flags]: `rt plant` in a crate of the checkout ROOT, where the stamps of the libraries below are made once

`rt plant`, as `rt check` does, sums up the files of each library below for each library above it, again and again: minutes for a high crate."""
import os
import sys

root, name = os.path.realpath(sys.argv[1]), sys.argv[2]
kit = os.path.dirname(os.path.realpath(os.popen("command -v rt").read().strip()))
path = f"{kit}/rt-plant"
loads = 'rt, bodies = load("rtlib.py"), load("rt-plant-bodies")\n'
remembers = f"""
stamps = {{}}


def remembered(part):
    own = getattr(rt.Crate, part)

    def get(self):
        if not self.folder.startswith({root!r}) or os.path.basename(self.folder) == {name!r}:
            return own(self)
        kept = stamps if part == "stamp" else self.__dict__.setdefault("_kept", {{}})
        if self.folder not in kept:
            kept[self.folder] = own(self)
        return list(kept[self.folder]) if isinstance(kept[self.folder], list) else kept[self.folder]

    setattr(rt.Crate, part, get)


for part in ("stamp", "below"):
    remembered(part)
"""
with open(path, encoding="utf-8") as file:
    text = file.read()
if loads not in text:
    sys.exit(f"plant.py: {path} loads rt's library otherwise than this tool expects")
os.chdir(f"{root}/crates/{name}")
sys.argv = [path, *sys.argv[3:]]
exec(compile(text.replace(loads, loads + remembers), path, "exec"), {"__name__": "__main__", "__file__": path})
