#!/bin/sh
# A script that replaces a variable or a type variable in one large term again and again, and prints each answer:
# `printing.sh RULE DOUBLINGS`, RULE being INST or INST_TYPE. The term is a balanced tree of applications with 2 to the power
# of DOUBLINGS leaves; ten theorems are made of it. Time a run with
#     sh bench/printing.sh INST 16 > /tmp/printing.hol && time crates/holp/out/holp run /tmp/printing.hol > /tmp/printing.out
if [ $# -ne 2 ]; then
    echo "usage: printing.sh RULE DOUBLINGS" >&2
    exit 2
fi
awk -v rule="$1" -v doublings="$2" '
BEGIN {
    tree = "(x:A)"
    for (i = 0; i < doublings; i++)
        tree = "((f:A->A->A) " tree " " tree ")"
    printf "thm a0 = REFL `%s` ;;\n", tree
    for (i = 1; i <= 10; i++)
        if (rule == "INST")
            printf "thm a%d = INST [`(x%d:A)`, `(x%s:A)`] a%d ;;\n", i, i, i == 1 ? "" : i - 1, i - 1
        else
            printf "thm b%d = INST_TYPE [`bool`, `A`] a0 ;;\n", i
}'
