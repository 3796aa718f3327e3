#!/usr/bin/env python3
"""lists.py: the lists of the pages against what they list. Each difference is told, and the status is then 1.

    docs/ARCHITECTURE.md   the crates, in the order of crates.txt; the folders of definitions
    docs/LOGS.md           the causes, those of crates/hol_model/src/fault.rt
    docs/REFERENCE.md      the refusals, with their numbers, those of the same file; a row for each word of the grammar
    all pages              each path that begins with a crate's name or a folder of the repository, and each `crate::name`
    bench/README.md        the works
    README.md              the seconds of works, which stand in docs/BENCHMARKS.md; the number of theorems
    library/README.md      the theorems, with what holp_examples prints of them, and their numbers
    library/developments   the numbers of commands and characters
"""
import glob
import os
import re
import sys

os.chdir(os.path.dirname(os.path.dirname(os.path.abspath(__file__))))
wrong = []


def text(path):
    with open(path, encoding="utf-8") as file:
        return file.read()


def part(path, begin, end):
    """the text of a file between two marks"""
    return text(path).split(begin, 1)[1].split(end, 1)[0]


def compare(what, told, is_so):
    if list(told) == list(is_so):
        return
    wrong.append(f"{what}: " + ", ".join([f"`{it}` is told alone" for it in told if it not in is_so] + [f"`{it}` is not told" for it in is_so if it not in told]))
    if wrong[-1] == f"{what}: ":
        wrong[-1] += "not in the same order"


def backquoted(shown):
    return re.findall(r"`([^`\n]+)`", shown)


def sources_of(crate):
    return "".join(text(path) for path in sorted(glob.glob(f"crates/{crate}/src/**/*.rt", recursive=True)))


CRATES = re.findall(r"(?m)^(\w+):", text("crates.txt"))
PAGES = ["README.md", *sorted(glob.glob("docs/*.md"))]

architecture = "docs/ARCHITECTURE.md"
compare(f"{architecture}, crates", re.findall(r"(?m)^(\w+) ", part(architecture, "```text\n", "```")), CRATES)
folders = sorted(os.path.basename(it) for it in glob.glob("crates/hol_model/specs/*") if os.path.isdir(it))
told = re.findall(r"(?m)^\| `(\w+)` \|", part(architecture, "## The definitions", "\n## "))
compare(f"{architecture}, definitions", sorted(told), folders)

faults = text("crates/hol_model/src/fault.rt")
causes = re.findall(r"(?m)^\| `(\w+)` \|", part("docs/LOGS.md", "## Why a log is refused", "\n## "))
compare("docs/LOGS.md, causes", causes, re.findall(r'#\[error\("([a-z]+)"\)\]', faults))
compare("docs/REFERENCE.md, refusals", re.findall(r"(?m)^\| (E\d+ \w+) \|", text("docs/REFERENCE.md")), re.findall(r'#\[error\("(E\d+ \w+)', faults))

words = re.findall(r'"([A-Z][A-Z0-9_]+)"', part("docs/REFERENCE.md", "\ncommand     =", "```"))
cells = " ".join(re.findall(r"(?m)^\| (.*?) \|", part("docs/REFERENCE.md", "## 5. Rules", "\n## 8.").replace("\\|", "")))
compare("docs/REFERENCE.md, tables beside the grammar", sorted(set(re.findall(r"\b[A-Z][A-Z0-9_]+\b", cells))), sorted(set(words)))

for page in PAGES:
    for path in backquoted(text(page)):
        first = path.split("/")[0]
        if "/" in path and re.fullmatch(r"[\w./-]+", path) and (first in CRATES or first in ("crates", "tools", "bench", "examples", "library", "docs")):
            full = f"crates/{path}" if first in CRATES else path
            if not any(os.path.exists(full + end) for end in ("", ".rt", ".antt")) and "/out/" not in full and "NAME" not in full and "my_host" not in full:
                wrong.append(f"{page}: no such path: {path}")

    for crate, name in re.findall(r"\b(hol_\w+)::(?:\w+::)*(\w+)", text(page)):
        if crate in CRATES and not os.path.exists(f"crates/{crate}/src/{name}.rt") and not re.search(rf"\b(?:fn|struct|enum|trait) {name}\b", sources_of(crate)):
            wrong.append(f"{page}: {crate} has no {name}")

bench = set(re.findall(r"`(\w+\.(?:sh|py|ml))", text("bench/README.md")))
compare("bench/README.md, files", sorted(bench), sorted(os.path.basename(it) for it in glob.glob("bench/*.*") if not it.endswith(".md")))
works = re.search(r"(?ms)^WORKS = \[(.*?)\]", text("bench/works.py"))[1].split(", ")
told = [it.split(" ")[0] for row in re.findall(r"(?m)^\| (`works\.py.*?) \| ", text("bench/README.md")) for it in backquoted(row.replace("works.py ", ""))]
compare("bench/README.md, works", sorted(told), sorted(works))


def plain(shown):
    """a printed theorem as the library's page has it: without the types of free variables and of constants"""
    ty = r"[^\s()\[\]]*(?:\((?:[^()]|\([^()]*\))*\)[^\s()\[\]]*)*"
    shown = re.sub(rf"\(([A-Za-z][\w']*):{ty}\)", r"\1", shown)
    return re.sub(r"\[([A-Za-z][\w']*)\]", r"\1", re.sub(rf"\[([^\s:\]]+):{ty}\]", r"[\1]", shown))


counts, total = dict(re.findall(r"(?m)^\| `(\w+)\.hol` \|.*\| (\d+) \|", text("library/README.md"))), 0
printed = dict(re.findall(r"(?m)^(\w+): ((?:.* )?\|- .*)$", part("crates/holp_examples/stdout", "\n== logic.hol\n", "\n== tests/")))
page = text("library/README.md")
chapters = re.split(r"(?m)^## .*\(`library/(\w+)\.hol`\).*$", page)
for name, chapter in zip(chapters[1::2], chapters[2::2]):
    if name not in counts:
        continue
    stored = dict.fromkeys(re.findall(r"(?m)^(?:thm|save) (\w+)", text(f"library/{name}.hol")))
    told = dict(re.findall(r"(?m)^- `(\w+)`(?: \*)?: `(.*)`$", chapter))
    compare(f"library/README.md, {name}", sorted(told), sorted(it for it in stored if not re.match(r"(lg|ch|fn|rl|st|od|nm)_", it)))
    compare(f"library/README.md, {name}: the number of theorems", [counts.get(name)], [str(len(told))])
    total += len(told)
    for theorem, said in told.items():
        shown = plain(printed.get(theorem, ""))
        shown = shown.removeprefix("|- ")
        if said != shown:
            wrong.append(f"library/README.md: {theorem}: {said}\n    is printed as {shown}")
figures = re.findall(r"(?m)^\| .*? \| ([\d.]+) \| ([\d.]+) \|$", text("README.md"))
rows = [row.split(" | ") for row in text("docs/BENCHMARKS.md").splitlines()]
compare("README.md: seconds", figures, [it for it in figures if any(set(it) <= set(row) for row in rows)])
compare("README.md: the number of theorems", re.findall(r"(\d+) theorems of", text("README.md")), [str(total)])
ROW = r"(?m)^\| `(\w+)` \| [\d,]+ \| ([\d,]+) \| [\d-]+ \| [\d,]+ \| ([\d,]+) \|"
told, is_so = re.findall(ROW, text("library/developments/README.md")), []
for name, _, _ in told:
    script = " ".join(text(f"library/developments/{name}.hol").split())
    is_so.append((name, f"{script.count(';;'):,}", f"{len(script):,}"))
compare("library/developments", told, is_so)
print("\n".join(wrong) if wrong else "all lists are as what they list")
sys.exit(1 if wrong else 0)
