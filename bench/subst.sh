#!/bin/sh
# Times `vsubst` and `inst` on terms of over 100,000 nodes under 1,000 binders: `subst.sh FOLDER`.
# The folder, which is made, gets a copy of the crates up to `hol_subst`, with their proofs so far, and the program
# beside them: each .rt and .antt file of this repository belongs to a crate, so the program's texts stand in
# bench/subst as .txt. The times, in microseconds, come on standard error.
set -e
if [ $# -ne 1 ] || [ -e "$1" ]; then
    echo "usage: subst.sh FOLDER, a new one" >&2
    exit 2
fi
here=$(cd "$(dirname "$0")" && pwd)
mkdir -p "$1/crates/subst/src" "$1/crates/subst/proofs/term/+tree"
git init -q "$1"
for crate in hol_model hol_types hol_terms hol_alpha hol_subst; do
    cp -a "$here/../crates/$crate" "$1/crates/"
    grep "^$crate:" "$here/../crates.txt" >> "$1/crates.txt"
done
echo "subst: hol_model hol_subst hol_terms hol_types" >> "$1/crates.txt"
cp "$here/subst/main.txt" "$1/crates/subst/src/main.rt"
cp "$here/subst/term.txt" "$1/crates/subst/src/term.rt"
cp "$here/subst/Invariants.txt" "$1/crates/subst/proofs/term/+tree/Invariants.antt"
cd "$1/crates/subst"
rt run
