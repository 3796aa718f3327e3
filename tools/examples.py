#!/usr/bin/env python3
"""examples.py [PROGRAM] [--write]: the examples and links of README.md and docs/ against what the gate runs.

`rt ci` runs the command lines of crates/holp_examples/data/lines.txt and compares what they print with crates/holp_examples/stdout,
where what the library's scripts print stands behind it; of the host in crates/holp_host_example likewise. This tool compares the
pages with those files. A comment stands before a block of code:

    <!-- example: NAME.hol -->                  lines of the script, each command with what it prints behind `> `
    <!-- example: NAME.hol, its log -->         lines of its log; `.. checked`, `.. reviewed`: of what `check --theory`, `--review` say
    <!-- example: host -->                      the same of the script that the host runs
    <!-- file: PATH -->                         lines of a file of the repository
    <!-- shell -->                              commands behind `$ `, each with what it prints, and `[N]` for a status that is not 0

The lines of a block stand there in one piece, but where a line `..` says that some are left out. A row of a table that begins with a
refusal, as `| E5 UnknownConst |`, ends with commands that stand in reference/refusals.hol and of which the last meets that refusal.
A block of shell whose commands all stand in lines.txt (there without `examples/`) is compared with what the gate compares, but for
the messages on standard error. Other blocks of shell, these messages, and rows whose commands are for a shell (`$ ..`) are compared
where PROGRAM is given. With --write, PROGRAM makes the command lines' part of crates/holp_examples/stdout anew, and what blocks of
commands print. Each difference is told, and the status is then 1. Each number of crates/hol_model/src/limits.rt stands in the table
of limits.
"""
import os
import re
import shutil
import subprocess
import sys
import tempfile

ROOT = os.path.dirname(os.path.dirname(os.path.abspath(__file__)))
CRATE, HOST = f"{ROOT}/crates/holp_examples", f"{ROOT}/crates/holp_host_example"
words = [it for it in sys.argv[1:] if it != "--write"]
PROGRAM = os.path.abspath(words[0]) if words else None
BLOCK = re.compile(r"(<!-- (example|file|shell)(?:: (.*?))? -->\n```\w*\n)(.*?)```\n", re.S)
wrong, unread = [], []


def text(path):
    with open(path, encoding="utf-8") as file:
        return file.read()


def split_stdout():
    """what the program of the crate prints: of the command lines, and of the library"""
    of_lines, mark, of_library = text(f"{CRATE}/stdout").partition("== logic.hol\n")
    return of_lines, mark + of_library


def write_stdout():
    """what the program of the crate prints of the command lines, made by PROGRAM"""
    made, of_library = "", split_stdout()[1]
    with tempfile.TemporaryDirectory() as room:
        data = shutil.copytree(f"{CRATE}/data", f"{room}/data")
        with open(f"{CRATE}/stdin", encoding="utf-8") as given:
            for line in LINES:
                ran = subprocess.run([PROGRAM, *line.split()[2:]], cwd=data, stdin=given, stdout=subprocess.PIPE, stderr=subprocess.DEVNULL, text=True, timeout=120)
                made += f"{line}\n{ran.stdout}" + (f"[{ran.returncode}]\n" if ran.returncode else "")
    with open(f"{CRATE}/stdout", "w", encoding="utf-8") as file:
        file.write(made + of_library)


def cut_stdout():
    """what the gate compares, by its command lines, each as a list of lines"""
    left, shown = split_stdout()[0].splitlines(), {}
    for line, behind in zip(LINES, LINES[1:] + [None]):
        if left[:1] != [line]:
            sys.exit(f"{CRATE}/stdout: {line} does not stand where it should")
        end = left.index(behind, 1) if behind else len(left)
        shown[line] = left[1:end]
        left = left[end:]
    return shown


def printed(name):
    """what the gate compares of a script, `NAME.hol`, `NAME.hol, its log`, `NAME.hol, its log checked` or `.. reviewed`"""
    script, _, which = name.partition(", ")
    log = os.path.basename(script).replace(".hol", ".log")
    if which:
        option = "--review" if "reviewed" in which else "--theory"
        return sections[f"$ holp run {script} --log /dev/stdout" if which == "its log" else f"$ holp check {option} {log}"]
    lines = (f"$ holp run {script}{option}" for option in ("", " --explain", f" --log {log}"))
    return next(sections[line] for line in lines if line in sections)


def session(name):
    """the commands of a script, each with what it prints: its answers stand in the order of its commands"""
    script = f"{HOST}/data/host.hol" if name == "host" else f"{CRATE}/data/{name}"
    answers, shown = text(f"{HOST}/stdout").splitlines() if name == "host" else printed(name), []
    if answers[-1:] == ["[1]"]:
        answers = answers[:-1]
    for number, command in commands(text(script)):
        word, count = command.split()[0], 0
        if answers and answers[0].startswith(f"line {number}: "):
            count = 1
        elif word in ("thm", "show", "save", "def"):
            count = 1
        elif word in ("goal", "e", "b", "p", "r"):
            goals = re.match(r"(\d+) subgoals?$", answers[0])
            count = 1 + int(goals[1]) if goals else 1
        shown.append([*command.split("\n"), *("> " + line for line in answers[:count])])
        answers = answers[count:]
    if answers:
        wrong.append(f"{name}: the session does not end with its script")
    return shown


def commands(script):
    """the commands of a script, each with the number of its first line"""
    at = 0
    for found in re.finditer(r"\s*(.*?;;|\S.*)", script, re.S):
        yield script.count("\n", 0, found.start(1)) + 1, found[1]


def has_piece(whole, piece):
    return any(whole[at : at + len(piece)] == piece for at in range(len(whole) - len(piece) + 1))


def told(block, name):
    """a block of a session's commands, with what they print"""
    left, shown = session(name), []
    for given in re.findall(r"(?m)^\.\.$|^(?!> )(?:.|\n)*?;;$", "\n".join(block)):
        if given == "..":
            shown.append(given)
            continue
        place = next((at for at, lines in enumerate(left) if "\n".join(lines).startswith(given)), None)
        if place is None:
            return block
        shown += left[place]
        left = left[place + 1 :]
    return shown


def run_commands(lines):
    """a block of shell, as it should stand"""
    shown = []
    with tempfile.TemporaryDirectory() as room:
        os.symlink(PROGRAM, f"{room}/holp")
        os.symlink(f"{CRATE}/data", f"{room}/examples")
        search = dict(os.environ, PATH=f"{room}:{os.environ['PATH']}")
        for line in lines:
            if line.startswith("$ "):
                ran = subprocess.run(["bash", "-c", line[2:]], cwd=room, env=search, stdout=subprocess.PIPE, stderr=subprocess.STDOUT, text=True, timeout=120)
                shown += [line, *ran.stdout.splitlines()]
                if ran.returncode:
                    shown.append(f"[{ran.returncode}]")
    return shown


def is_told(line):
    """whether a line of a block of shell stands on standard error"""
    return re.match(r"holp: |\S+\.hol:\d+:", line)


def judge_shell(page, block):
    """a block of shell, against what the gate compares, where it has each command"""
    shown = []
    for line in block:
        if line.startswith("$ "):
            line = line.replace("examples/", "")
            if line not in sections:
                return False
            shown += [line, *sections[line]]
    if [line.replace("examples/", "") if line.startswith("$ ") else line for line in block if not is_told(line)] != shown:
        wrong.append(f"{page}: shell: " + "\n    ".join(shown))
    return True


def written(kind, name, block):
    """the block as --write leaves it"""
    if kind == "shell":
        return run_commands(block)
    return told(block, name) if kind == "example" and "," not in name else block


def judge_block(page, kind, name, block):
    if kind == "shell":
        if PROGRAM and run_commands(block) != block:
            wrong.append(f"{page}: shell: " + "\n    ".join(run_commands(block)))
        if not judge_shell(page, block):
            unread.append(page)
        return
    if kind == "file":
        whole = text(f"{ROOT}/{name}").splitlines()
    elif "," in name:
        whole = printed(name)
    else:
        whole = sum(session(name), [])
    for piece in re.split(r"(?m)^\.\.\n", "\n".join(block) + "\n"):
        if not has_piece(whole, piece.splitlines()):
            wrong.append(f"{page}: {name} has no such lines:\n    " + piece.replace("\n", "\n    "))


def judge_row(page, code, refusal, cell):
    if cell.startswith("$ "):
        if PROGRAM and f"{code} {refusal}" not in "\n".join(run_commands([cell])) and code != "E30":
            wrong.append(f"{page}: {code}: {run_commands([cell])}")
        return
    given = [" ".join(it.split()) for it in re.findall(r".*?;;", cell, re.S)]
    script = list(commands(text(f"{CRATE}/data/reference/refusals.hol")))
    answers = " ".join(printed("reference/refusals.hol"))
    places = [script[at][0] for at in range(len(script)) if [it for _, it in script[: at + 1]][-len(given) :] == given]
    if not any(f"line {place}: {code} {refusal}" in answers for place in places):
        wrong.append(f"{page}: {code} {refusal} is not met by {given}")


def anchor(heading):
    return re.sub(r"[^\w\- ]", "", heading.strip().lower()).replace(" ", "-")


def judge_links(page, here):
    for target in re.findall(r"\]\(([^)\s]+)\)", re.sub(r"```.*?```|`[^`\n]*`", "", here, flags=re.S)):
        if "://" in target:
            continue
        path, _, place = target.partition("#")
        path = os.path.normpath(os.path.join(os.path.dirname(f"{ROOT}/{page}"), path)) if path else f"{ROOT}/{page}"
        if not os.path.exists(path):
            wrong.append(f"{page}: no such file: {target}")
        elif place and place not in [anchor(it) for it in re.findall(r"(?m)^#+ (.*)$", text(path))]:
            wrong.append(f"{page}: no such heading: {target}")


LINES = text(f"{CRATE}/data/lines.txt").splitlines()
if "--write" in sys.argv:
    write_stdout()
sections = cut_stdout()
pages = ["README.md"] + [f"docs/{name}" for name in sorted(os.listdir(f"{ROOT}/docs")) if name.endswith(".md")]
for page in pages:
    here = text(f"{ROOT}/{page}")
    if "--write" in sys.argv:
        here = re.sub(BLOCK, lambda it: it[1] + "".join(line + "\n" for line in written(it[2], it[3], it[4].splitlines())) + "```\n", here)
        with open(f"{ROOT}/{page}", "w", encoding="utf-8") as file:
            file.write(here)
    for _, kind, name, block in re.findall(BLOCK, here):
        judge_block(page, kind, name, block.splitlines())
    for code, refusal, cell in re.findall(r"(?m)^\| (E\d+) (\w+) \|.*\| `+ ?(.*?) ?`+ \|$", here):
        judge_row(page, code, refusal, cell.replace("\\|", "|"))
    judge_links(page, here)
table = re.search(r"(?ms)^## 10\. Limits\n.*?^## ", text(f"{ROOT}/docs/REFERENCE.md"))[0]
for name, number in re.findall(r"pub const (\w+_LIMIT): \w+ = ([\d_]+);", text(f"{ROOT}/crates/hol_model/src/limits.rt")):
    if name != "NUMBER_LIMIT" and f"| {int(number):,} " not in table:
        wrong.append(f"docs/REFERENCE.md: {name} is not in the table of limits")
if not PROGRAM and unread:
    print("no PROGRAM was given, so a block of shell was not compared: " + ", ".join(unread))
print("\n".join(wrong) if wrong else f"{len(pages)} pages: all as they are run")
sys.exit(1 if wrong else 0)
