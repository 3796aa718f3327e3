#!/bin/sh
# A proof log over shared terms: `log.sh ROUNDS DEPTH`.
# Each round has six theorem lines (REFL, MK_COMB, TRANS, ASSUME, EQ_MP, INST) over a term that is one application higher
# than the last round's; after DEPTH rounds (at least 1, at most 3900) a new variable begins. The last theorem but one is
# claimed. Time a check with
#     sh bench/log.sh 130000 20 > /tmp/large.log && time crates/holp/out/holp check /tmp/large.log
if [ $# -ne 2 ]; then
    echo "usage: log.sh ROUNDS DEPTH" >&2
    exit 2
fi
awk -v rounds="$1" -v depth="$2" '
BEGIN {
    print "holp-log 2\ny b\ny f 0 0\nt v f 1\nt v y 0\nk REFL 0"
    terms = 2
    theorems = 1
    for (round = 0; round < rounds; round++) {
        if (round % depth == 0) {
            variable = terms++
            printf "t v x%d 0\n", variable
            last = variable
        } else {
            printf "t a 0 %d\n", last
            last = terms++
        }
        first = theorems
        printf "k REFL %d\nk MK_COMB 0 %d\nk TRANS %d %d\n", last, first, first + 1, first + 1
        printf "k ASSUME %d\nk EQ_MP %d %d\nk INST %d 1 %d\n", last, first, first + 3, first + 4, variable
        theorems += 6
    }
    if (rounds > 0)
        printf "c last %d %d %d\nend 1\n", theorems - 2, last, last
    else
        print "end 0"
}'
