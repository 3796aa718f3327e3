#!/bin/sh
# A script of tautologies: `taut.sh KIND ATOMS`, with peirce, conjunction, implications, chain, mirror, part or premise for KIND.
# Its one line is `thm t = TAUT ..` of Peirce's law (whatever ATOMS is), of a conjunction of so many atoms that implies its
# last, of so many atoms each of which implies the next (the first then implies the last), or of a chain of `<=>` over them
# with the same chain backwards, or with its mirror (bracketed from the left): 2 to 14 atoms. A part is such a chain with its
# mirror beneath an implication from `z`, and a premise such a chain with `z` that implies its mirror: 2 to 13 atoms. Time it with
#     sh bench/taut.sh chain 10 > /tmp/taut.hol && time crates/holp/out/holp run /tmp/taut.hol
if [ $# -ne 2 ] || [ "$2" -lt 2 ] || [ "$2" -gt 14 ]; then
    echo "usage: taut.sh peirce|conjunction|implications|chain|mirror|part|premise ATOMS, 2 to 14" >&2
    exit 2
fi
awk -v kind="$1" -v atoms="$2" '
# the atom of a number, with its type
function atom(number) {
    return "(" substr("abcdefghijklmn", number, 1) ":bool)"
}
# the atoms in their order, under a connective that associates to the right
function joined(connective,    at, text) {
    text = atom(1)
    for (at = 2; at <= atoms; at++)
        text = text " " connective " " atom(at)
    return text
}
function backwards(connective,    at, text) {
    text = atom(atoms)
    for (at = atoms - 1; at >= 1; at--)
        text = text " " connective " " atom(at)
    return text
}
function mirrored(connective,    at, text) {
    text = atom(atoms)
    for (at = atoms - 1; at >= 1; at--)
        text = "(" text ") " connective " " atom(at)
    return text
}
function steps(    at, text) {
    text = "(" atom(1) " ==> " atom(2) ")"
    for (at = 2; at < atoms; at++)
        text = text " /\\ (" atom(at) " ==> " atom(at + 1) ")"
    return text
}
BEGIN {
    if (kind == "peirce")
        formula = "((" atom(1) " ==> " atom(2) ") ==> " atom(1) ") ==> " atom(1)
    else if (kind == "conjunction")
        formula = joined("/\\") " ==> " atom(atoms)
    else if (kind == "implications")
        formula = steps() " ==> " atom(1) " ==> " atom(atoms)
    else if (kind == "chain")
        formula = "(" joined("<=>") ") <=> (" backwards("<=>") ")"
    else if (kind == "mirror")
        formula = "(" joined("<=>") ") <=> (" mirrored("<=>") ")"
    else if (kind == "part")
        formula = "(z:bool) ==> ((" joined("<=>") ") <=> (" mirrored("<=>") "))"
    else if (kind == "premise")
        formula = "(" joined("<=>") ") /\\ (z:bool) ==> (" mirrored("<=>") ")"
    else
        exit 2
    print "thm t = TAUT `" formula "` ;;"
}'
