#!/bin/sh
# A script of one command that reads a term and prints it twice: `terms.sh BINDERS NODES`.
# The term is a balanced tree of equations, of about so many nodes, under so many binders (at least 1, at most 900); its
# variables are the outermost binder's. Time a run with
#     sh bench/terms.sh 2 100000 > /tmp/wide.hol && time crates/holp/out/holp run /tmp/wide.hol > /tmp/wide.out
if [ $# -ne 2 ]; then
    echo "usage: terms.sh BINDERS NODES" >&2
    exit 2
fi
awk -v binders="$1" -v nodes="$2" '
# A tree of this many equations, each of 5 nodes; each `<=>` has 3 more.
function tree(equations, half) {
    if (equations <= 1) {
        printf "(x1 = x1)"
        return
    }
    half = int(equations / 2)
    printf "("
    tree(half)
    printf " <=> "
    tree(equations - half)
    printf ")"
}
BEGIN {
    printf "thm a = REFL `"
    for (i = 1; i <= binders; i++)
        printf "\\x%d:A. ", i
    tree(int((nodes - binders + 3) / 8))
    print "` ;;"
}'
