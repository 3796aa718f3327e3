#!/bin/sh
# A script of the ten rules: `run.sh ROUNDS`, with ten commands a round, over a variable of its own.
# Time runs without and with a log, and the check of the log, with
#     sh bench/run.sh 1000 > /tmp/rules.hol
#     time crates/holp/out/holp run /tmp/rules.hol > /tmp/rules.out
#     time crates/holp/out/holp run /tmp/rules.hol --log /tmp/rules.log > /tmp/rules.out
#     time crates/holp/out/holp check /tmp/rules.log > /tmp/rules.claims
if [ $# -ne 1 ]; then
    echo "usage: run.sh ROUNDS" >&2
    exit 2
fi
awk -v rounds="$1" '
BEGIN {
    print "thm f = REFL `(f:bool->bool)` ;;\nthm g = REFL `(g:A->bool)` ;;"
    for (round = 0; round < rounds; round++) {
        x = "x" round
        printf "thm refl%d = REFL `(%s:bool)` ;;\n", round, x
        printf "thm assume%d = ASSUME `(%s:bool)` ;;\n", round, x
        printf "thm beta%d = BETA `(\\%s:bool. %s) (%s:bool)` ;;\n", round, x, x, x
        printf "thm trans%d = TRANS beta%d refl%d ;;\n", round, round, round
        printf "thm comb%d = MK_COMB f refl%d ;;\n", round, round
        printf "thm mp%d = EQ_MP refl%d assume%d ;;\n", round, round, round
        printf "thm deduct%d = DEDUCT_ANTISYM_RULE assume%d mp%d ;;\n", round, round, round
        printf "thm abs%d = ABS `(%s:bool)` comb%d ;;\n", round, x, round
        printf "thm inst%d = INST [`(y:bool)`, `(%s:bool)`] assume%d ;;\n", round, x, round
        printf "thm type%d = INST_TYPE [`bool`, `A`] g ;;\n", round
    }
}'
