#!/bin/sh
# A proof log of abstractions over shared open terms: `open.sh ROUNDS DOUBLINGS`.
# Each round has a function f of its own, the terms d_0 = x and d_(i+1) = f d_i d_i up to DOUBLINGS
# (at most 18, by the limit on nodes), the abstraction of the last over x, and REFL of it. As a tree the body has about
# 4 * 2^DOUBLINGS nodes, and 2 * DOUBLINGS distinct parts. Time a check with
#     sh bench/open.sh 1000 18 > /tmp/open.log && time crates/holp/out/holp check /tmp/open.log
if [ $# -ne 2 ]; then
    echo "usage: open.sh ROUNDS DOUBLINGS" >&2
    exit 2
fi
awk -v rounds="$1" -v doublings="$2" '
BEGIN {
    print "holp-log 2\ny b\ny f 0 0\ny f 0 1\nt v x 0"
    terms = 1
    for (round = 0; round < rounds; round++) {
        printf "t v f%d 2\n", round
        function_term = terms++
        last = 0
        for (doubling = 0; doubling < doublings; doubling++) {
            printf "t a %d %d\nt a %d %d\n", function_term, last, terms, last
            terms += 2
            last = terms - 1
        }
        printf "t l 0 %d\nk REFL %d\n", last, terms
        terms++
    }
    print "end 0"
}'
