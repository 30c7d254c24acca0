#!/bin/sh
# Builds from a fresh clone, with no network: target/release/oracle, naklist, commands, compare and
# replay_list; then the port's archive, by ../link/archive.sh, and over it target/release/port.
#   ./build.sh            all of it
#   ./build.sh oracle     without the port, for which the Rattle kit is not needed
# CFDP_LIB=FOLDER (its full path) links the libcfdp.a of that folder, and makes none.
set -eu
here=$(cd "$(dirname "$0")" && pwd)
cd "$here"
cargo build --release --offline --target-dir "$here/target"
[ "${1:-all}" != oracle ] || exit 0
[ -n "${CFDP_LIB:-}" ] || ../link/archive.sh
cargo build --release --offline --target-dir "$here/target" -p port
