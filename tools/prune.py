#!/usr/bin/env python3
"""prune.py JOINED STUBS CRATE..: drops lemma files of stubs that no other crate and no source of their own names"""
import os,re,sys
joined, stubs, *names = sys.argv[1:]
def texts(root, crate, parts):
    for part in parts:
        for at,_,fs in os.walk(f"{root}/crates/{crate}/{part}"):
            for f in fs:
                if f.endswith((".rt",".antt")):
                    yield f"{at}/{f}", open(f"{at}/{f}",encoding="utf-8").read()
allc = os.listdir(f"{joined}/crates")
USE = re.compile(r"Rattle\.(\w+)\.proofs\.([\w.+'-]+)")
wanted = {}
for c in allc:
    for p,t in texts(joined,c,("src","specs","proofs")):
        for m in USE.finditer(t):
            if m[1]!=c: wanted.setdefault(m[1],set()).add(m[2].rstrip('.'))
        for m in re.finditer(r"\b(hol_\w+)::proofs::([\w:]+)",t):
            if m[1]!=c: wanted.setdefault(m[1],set()).add(m[2].replace("::","."))
EXTRA={"hol_script_session":["ToolLemmas"]}
for c in EXTRA: wanted.setdefault(c,set()).update(EXTRA[c])
for c in names:
    base=f"{stubs}/crates/{c}/proofs"
    if not os.path.isdir(base): continue
    files={}
    for at,_,fs in os.walk(base):
        for f in fs:
            if f.endswith(".antt") and f!="Lib.antt":
                rel=os.path.relpath(f"{at}/{f}",base)[:-5].replace("/",".")
                files[rel]=open(f"{at}/{f}",encoding="utf-8").read()
    need=set(); todo=[]
    def add(path):
        best=None
        for rel in files:
            if path==rel or path.startswith(rel+"."):
                if best is None or len(rel)>len(best): best=rel
        if best and best not in need: need.add(best); todo.append(best)
    for w in wanted.get(c,()): add(w)
    for p,t in texts(stubs,c,("src","specs")):
        for m in USE.finditer(t):
            if m[1]==c: add(m[2].rstrip('.'))
        for m in re.finditer(r"crate::proofs::([\w:]+)",t): add(m[1].replace("::","."))
    while todo:
        r=todo.pop()
        for m in USE.finditer(files[r]):
            if m[1]==c: add(m[2].rstrip('.'))
    if not os.path.exists(f"{base}/Lib.antt"): continue
    lib=open(f"{base}/Lib.antt",encoding="utf-8").read()
    drop=[r for r in files if r not in need]
    if any('.' in r for r in files): print(c,"has nested",[r for r in files if '.' in r][:3]); 
    for r in drop:
        if '.' in r: continue
        os.remove(f"{base}/{r}.antt")
        lib=re.sub(r"(?m)^(pub )?mod "+re.escape(r)+r"\n","",lib)
    open(f"{base}/Lib.antt","w",encoding="utf-8").write(lib)
    print(c,"kept",len(need),"dropped",len(drop))
