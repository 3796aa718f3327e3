#!/usr/bin/env python3
"""standins.py FROM TO CRATE..: copies crates, each function's body replaced by a call that promises falsity"""
import os, re, shutil, sys

def skip(t, i):
    """past a comment, string or char at i, or i"""
    if t.startswith("//", i):
        j = t.find("\n", i); return len(t) if j < 0 else j
    if t.startswith("/*", i):
        return t.find("*/", i) + 2
    m = re.compile(r'b?r(#*)"').match(t, i)
    if m and (i == 0 or not (t[i-1].isalnum() or t[i-1]=='_')):
        e = t.find('"' + m[1], m.end()); return e + 1 + len(m[1])
    if t[i] == '"':
        j = i + 1
        while t[j] != '"':
            j += 2 if t[j] == "\\" else 1
        return j + 1
    if t[i] == "'":
        m = re.compile(r"'(\\x[0-9a-fA-F]{2}|\\u\{[^}]*\}|\\.|[^\\'])'").match(t, i)
        if m: return m.end()
        return i + 1
    return i

PAIR = {"{": "}", "(": ")", "[": "]"}
def group(t, i, antt=False):
    """t[i] opens; returns the index past its close"""
    close = PAIR[t[i]]; opened = t[i]; depth = 0
    while True:
        if antt:
            if t.startswith("--", i) : pass
        j = i if antt else skip(t, i)
        if j != i:
            i = j; continue
        c = t[i]
        if c == opened: depth += 1
        elif c == close:
            depth -= 1
            if depth == 0: return i + 1
        i += 1

CLAUSE = re.compile(r"(requires|ensures|derives|decreases|invariant)\*?(\s+[A-Za-z_][\w]*)?\s*$|ghost\s+\w+\s*:\s*$")
FN = re.compile(r"\bfn\s+([A-Za-z_]\w*)")

def transform(t, call):
    out = []; i = 0; n = len(t); last = 0
    while i < n:
        j = skip(t, i)
        if j != i:
            i = j; continue
        m = FN.match(t, i) if (t[i] == "f" and (i == 0 or not (t[i-1].isalnum() or t[i-1] == "_"))) else None
        if not m:
            # skip ghost groups of impls: `ghost x = { .. }` may hold the word fn? no
            i += 1; continue
        k = m.end()
        # parameters
        while t[k] not in "(":
            k += 1
        k = group(t, k)
        while True:
            j = skip(t, k)
            if j != k:
                k = j; continue
            if t[k] == ";":
                i = k + 1; break
            if t[k] == "{":
                before = t[:k][-200:]
                if CLAUSE.search(before):
                    k = group(t, k, antt=True); continue
                e = group(t, k)
                out.append(t[last:k]); out.append("{ %s; unreachable!() }" % call); last = e
                i = e; break
            if t[k] in "([":
                k = group(t, k); continue
            k += 1
    out.append(t[last:])
    return "".join(out)

def main():
    source, to, *names = sys.argv[1:]
    for name in names:
        a, b = f"{source}/crates/{name}", f"{to}/crates/{name}"
        shutil.rmtree(b, ignore_errors=True)
        os.makedirs(b)
        for part in ("src", "specs", "proofs"):
            if os.path.isdir(f"{a}/{part}"):
                shutil.copytree(f"{a}/{part}", f"{b}/{part}")
        if name == "hol_model":
            os.makedirs(f"{b}/c")
            with open(f"{b}/c/none.c", "w") as it: it.write("unsigned char hol_none(void) { return 0; }\n")
            with open(f"{b}/src/lib.rt", "a") as it:
                it.write("\npub mod impossible;\n")
            with open(f"{b}/src/impossible.rt", "w") as it:
                it.write("unsafe extern \"C\" {\n    safe fn hol_none() -> u8\n        ensures { ⊥ };\n}\n\npub fn impossible()\n    ensures { ⊥ }\n{\n    hol_none();\n}\n")
            continue
        for at, _, files in os.walk(f"{b}/src"):
            for f in files:
                if f.endswith(".rt"):
                    p = f"{at}/{f}"
                    t = open(p, encoding="utf-8").read()
                    t = re.sub(r"(?m)^[ \t]*#\[cycle\([^]]*\)\]\n(?=(?:[ \t]*(?:#\[[^\n]*|///?[^\n]*)\n)*[ \t]*(?:pub(?:\([a-z]+\))?\s+)?(?:const\s+)?fn\b)", "", t)
                    t = re.sub(r"(?m)^\s*#\[tactic\([^]]*\)\]\n", "", t)
                    t = transform(t, "hol_model::impossible::impossible()")
                    open(p, "w", encoding="utf-8").write(t)
        d = f"{b}/proofs"
        if os.path.isdir(d):
            for f in os.listdir(d):
                if os.path.isdir(f"{d}/{f}") and not re.match("[A-Z]", f):
                    shutil.rmtree(f"{d}/{f}")
main()
