#!/bin/sh
# Builds HOL Light with the peers of the benchmark's works as one native program: `hol_light.sh OUT`.
# It takes the sources of Debian's package hol-light (up to class.ml) and wants camlp5, ocaml and libnum-ocaml-dev. Call it as
#     OUT WORK SIZE.. [--same | --print] < SCRIPT
#     OUT check LOG
# SCRIPT is holp's script of the work, which --same and the work `taut` read. `check` reads a proof log and prints what
# `holp check LOG` prints. It does one work, and writes the seconds of the processor that the work took behind the start, at
# the end of standard error. The start itself prints some lines first.
set -e
if [ $# -ne 1 ]; then
    echo "usage: hol_light.sh OUT" >&2
    exit 2
fi
here=$(cd "$(dirname "$0")" && pwd) out=$(realpath -m "$1") sources=${HOL_LIGHT:-/usr/share/hol-light}
room=$(mktemp -d)
trap 'rm -rf "$room"' EXIT
cd "$room"
# the quotations of system.ml, for the preprocessor
sed -n '/^let quotexpander/,/^Quotation.add/p' "$sources/system.ml" > quotations.ml
ocamlc -I +camlp5 -c quotations.ml
for file in system lib fusion basics nets printer preterm parser equal bool drule tactics itab simp theorems ind_defs class; do
    sed -e '/^#/d' -e '/^needs /d' -e '/^let print_fpf/d' -e '/^Quotation.add/d' "$sources/$file.ml"
done > all.ml
cat "$here/hol_light.ml" >> all.ml
camlp5o -I "$(ocamlc -where)/camlp-streams" -I "$sources" camlp_streams.cma pa_j.cmo ./quotations.cmo -o all.ast all.ml > /dev/null
ocamlopt nums.cmxa -inline 100 -unsafe -w -a -impl all.ast -o "$out"
