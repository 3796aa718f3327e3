#!/bin/sh
# Times look-ups in nets of 2, 1,000 and 10,000 patterns, of which two fit: `net.sh FOLDER`.
# The folder, which is made, gets a copy of the crates up to `hol_net`, with their proofs so far, and the program beside
# them: each .rt file of this repository belongs to a crate, so the program's texts stand in bench/net as .txt. The times,
# in microseconds, come on standard error.
set -e
if [ $# -ne 1 ] || [ -e "$1" ]; then
    echo "usage: net.sh FOLDER, a new one" >&2
    exit 2
fi
here=$(cd "$(dirname "$0")" && pwd)
mkdir -p "$1/crates/net/src"
git init -q "$1"
for crate in hol_model hol_types hol_terms hol_net; do
    cp -a "$here/../crates/$crate" "$1/crates/"
    grep "^$crate:" "$here/../crates.txt" >> "$1/crates.txt"
done
echo "net: hol_model hol_net hol_terms hol_types" >> "$1/crates.txt"
cp "$here/net/main.txt" "$1/crates/net/src/main.rt"
cp "$here/net/patterns.txt" "$1/crates/net/src/patterns.rt"
cd "$1/crates/net"
rt run
