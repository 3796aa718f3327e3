#!/bin/sh
# A script that pushes negations inwards: `rewriting.sh conv|tactic tree DEPTH` or `rewriting.sh conv|tactic negations COUNT`.
# The term is the negation of a full binary tree of so many levels (1 to 12), conjunctions and disjunctions in turn over atoms
# of their own, or so many negations of an atom (1 to 1980). Its rules are `~~p <=> p` and the two laws of De Morgan, as one
# theorem; the last line rewrites by TOP_DEPTH_CONV (REWR_CONV dm), or by REWRITE_TAC [dm] as a goal. Time it with
#     sh bench/rewriting.sh conv tree 9 > /tmp/rewriting.hol && time crates/holp/out/holp run /tmp/rewriting.hol > /tmp/rewriting.out
# A tree of 13 levels would spend more than the 100,000 steps of a command (E20 StepLimit).
usage() {
    echo "usage: rewriting.sh conv|tactic tree DEPTH, 1 to 12, or rewriting.sh conv|tactic negations COUNT, 1 to 1980" >&2
    exit 2
}
[ $# -eq 3 ] && [ "$3" -ge 1 ] || usage
case "$1" in conv | tactic) ;; *) usage ;; esac
case "$2" in
tree) [ "$3" -le 12 ] || usage ;;
negations) [ "$3" -le 1980 ] || usage ;;
*) usage ;;
esac
awk -v how="$1" -v kind="$2" -v size="$3" '
# the tree of so many levels under this connective
function tree(levels, connective) {
    if (levels == 0)
        return "(x" atoms++ ":bool)"
    return "(" tree(levels - 1, other[connective]) " " connective " " tree(levels - 1, other[connective]) ")"
}
BEGIN {
    other["/\\"] = "\\/"
    other["\\/"] = "/\\"
    print "var p : bool ;;\nvar q : bool ;;"
    print "thm not = TAUT `~~p <=> p` ;;"
    print "thm and = TAUT `~(p /\\ q) <=> ~p \\/ ~q` ;;"
    print "thm or = TAUT `~(p \\/ q) <=> ~p /\\ ~q` ;;"
    print "thm both = CONJ and or ;;\nthm dm = CONJ not both ;;"
    if (kind == "tree") {
        term = "~" tree(size, "/\\")
    } else {
        term = "p"
        for (count = 0; count < size; count++)
            term = "~" term
    }
    if (how == "conv")
        print "thm pushed = CONV (TOP_DEPTH_CONV (REWR_CONV dm)) `" term "` ;;"
    else
        print "goal `" term "` ;;\ne REWRITE_TAC [dm] ;;"
}'
