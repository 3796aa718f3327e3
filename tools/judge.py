#!/usr/bin/env python3
"""judge.py ROOT CRATE [NAME..]: judges the crate's wrong bodies, or those of these names, those that the gate tries (.edit) and the others (.md) alike, over the libraries
that stand in ROOT. One that changes a function is judged by a check of that function alone, any other over the work that a check of the crate
kept. Status 1: one was not refused, or could not be judged."""
import glob
import os
import re
import sys

from rtkit import crates, rt

FUNCTION = re.compile(r"\s*(?:pub(?:\(crate\))? )?fn (\w+)")
IMPL = re.compile(r"impl(<[^>]*>)? (?:(\w+(?:<\w+>)?)(?:<.*?>)? for )?(\w+)(?:<(\w+)>)?")
TOLD = re.compile(r"(note: )?\S+:\d+:\d+:")
NAMES = re.compile(r"(note: )?(\./)?proofs/.*(has no field|is not in scope|has no `|was not admitted)")


def function_at(crate, file, line):
    """Returns the path of the function in which the line stands, or its end; None where it stands in none."""
    module = file.removeprefix("src/").removesuffix(".rt").removesuffix("/mod").split("/")
    owner = function = None
    with open(f"{crate.folder}/{file}", encoding="utf-8") as text:
        for it in text.read().split("\n")[: line + 1]:
            if it.startswith("}"):
                owner = function = None
            elif found := IMPL.match(it):
                generics, trait, owner, given = found.groups()
                owner, function = owner + (f"+{given}" if given and not generics else "") + re.sub(r"\W", "", trait or ""), None
            elif found := FUNCTION.match(it):
                function = found.group(1)
    if not function:
        return None
    if owner:
        return f"{owner}::{function}"
    return "::".join([crate.name, *(module if module != ["lib"] else []), function])


def judge(crate, edit):
    """Returns whether the wrong body was refused, and what to say."""
    label = f"must-fail {crate.name}/{os.path.basename(edit)}"
    texts, why = rt.read_edit(edit, crate.folder)
    if why:
        return False, f"{label}: BAD EDIT: {why}"
    path = None
    if len(texts) == 1 and list(texts)[0].startswith("src/"):
        ((file, text),) = texts.items()
        with open(f"{crate.folder}/{file}", encoding="utf-8") as old:
            lines = zip(old.read().split("\n"), text.split("\n"))
        path = function_at(crate, file, next(at for at, (one, other) in enumerate(lines) if one != other))
    if not path:
        came_to, said = rt.must_fail(crate, edit, ["--jobs", "1"], f"{crate.folder}/out/incremental")
        return came_to in (rt.REFUSED, rt.AT_LIMIT), said
    ran = rt.checked(crate, texts, ["--jobs", "1", "--only", path], None)
    told = [it for it in ran.stdout.split("\n") if TOLD.match(it) and (": error" in it or it.startswith("note: "))]
    first = next((it for it in told if not NAMES.match(it)), "")
    if told and not first:
        return False, f"{label}: refused, as it must be (only because a proof file names what the edit took away): {told[0][:160]}"
    if first:
        return True, f"{label}: refused, as it must be: {first[:300]}"
    return False, f"{label}: NOT REFUSED at {path}: {ran.stdout.strip()[-200:]}"


crate = next(it for it in crates(os.path.realpath(sys.argv[1])) if it.name == sys.argv[2])
edits = {os.path.splitext(os.path.basename(it))[0]: it for it in sorted(glob.glob(f"{crate.folder}/must-fail/*"))}
names = [it.removesuffix(".md").removesuffix(".edit") for it in sys.argv[3:]] or list(edits)
for name in names:
    if name not in edits:
        sys.exit(f"judge.py: {crate.name} has no edit {name}")
missed = False
for name in names:
    is_refused, said = judge(crate, edits[name])
    missed = missed or not is_refused
    print(said, flush=True)
sys.exit(missed)
