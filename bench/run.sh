#!/bin/sh
# Times port and Rust, both built in release, and prints a table in Markdown. Needs no network.
#   bench/run.sh
# CFDP_LIB=FOLDER (its full path) links the libcfdp.a of that folder; without it link/archive.sh makes one for this machine.
set -eu
here=$(cd "$(dirname "$0")" && pwd)
oracle=$here/../oracle
[ -n "${CFDP_LIB:-}" ] || "$here/../link/archive.sh" >&2
(cd "$oracle" && cargo build --release --offline --target-dir "$oracle/target" -p bench) >&2
"$oracle/target/release/bench"
# The same for C's typed names, where there is a C compiler: further rows of the last table.
if command -v cc >/dev/null; then
    cc -std=c99 -O2 -I"$here/../include" "$here/typed.c" "${CFDP_LIB:-$here/../target/staticlib}/libcfdp.a" -o "$oracle/target/release/typed"
    "$oracle/target/release/typed"
fi
