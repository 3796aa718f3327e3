#!/bin/sh
# Times the replay of a justification that names one part 2^15 times, beside calls of the same rules: `replay.sh FOLDER`.
# The folder, which is made, gets a copy of the crates up to `hol_just_replay`, with their proofs so far, and the program beside
# them: each .rt file of this repository belongs to a crate, so the program's texts stand in bench/replay as .txt. The
# times, in microseconds, come on standard error.
set -e
if [ $# -ne 1 ] || [ -e "$1" ]; then
    echo "usage: replay.sh FOLDER, a new one" >&2
    exit 2
fi
here=$(cd "$(dirname "$0")" && pwd)
mkdir -p "$1/crates/replay/src"
git init -q "$1"
for crate in hol_model hol_sound hol_laws_steps hol_types hol_terms hol_alpha hol_subst hol_kernel hol_journal hol_theorem_store hol_just \
    hol_equal hol_prelude_derivations hol_prelude_laws hol_prelude hol_taut_formulas \
    hol_taut_laws hol_theorem_library hol_bool hol_quant hol_just_replay; do
    cp -a "$here/../crates/$crate" "$1/crates/"
    grep "^$crate:" "$here/../crates.txt" >> "$1/crates.txt"
done
echo "replay: hol_model hol_types hol_terms hol_just hol_journal hol_theorem_library hol_bool hol_just_replay" >> "$1/crates.txt"
cp "$here/replay/main.txt" "$1/crates/replay/src/main.rt"
cp "$here/replay/doubling.txt" "$1/crates/replay/src/doubling.rt"
cd "$1/crates/replay"
rt run
