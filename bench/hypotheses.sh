#!/bin/sh
# A script of theorems with many hypotheses: `hypotheses.sh COUNT`. So many formulas are assumed, joined by CONJ one after
# another, discharged one after another, and undischarged again. Time a run with
#     sh bench/hypotheses.sh 600 > /tmp/hypotheses.hol && time crates/holp/out/holp run /tmp/hypotheses.hol > /tmp/hypotheses.out
if [ $# -ne 1 ]; then
    echo "usage: hypotheses.sh COUNT" >&2
    exit 2
fi
awk -v count="$1" '
BEGIN {
    for (i = 1; i <= count; i++)
        printf "thm a%d = ASSUME `(x%d:bool)` ;;\n", i, i
    print "thm c2 = CONJ a1 a2 ;;"
    for (i = 3; i <= count; i++)
        printf "thm c%d = CONJ c%d a%d ;;\n", i, i - 1, i
    printf "thm d1 = DISCH `(x1:bool)` c%d ;;\n", count
    for (i = 2; i <= count; i++)
        printf "thm d%d = DISCH `(x%d:bool)` d%d ;;\n", i, i, i - 1
    printf "thm u1 = UNDISCH d%d ;;\n", count
    for (i = 2; i <= count; i++)
        printf "thm u%d = UNDISCH u%d ;;\n", i, i - 1
}'
