#!/bin/sh
# Port and Rust on the same commands: those of `commands exhaustive` once, those of `commands base SEED`,
# `commands eof SEED` and `commands metadata SEED` for each seed. Builds both first. Prints the seeds, what differs, and the counts;
# ends with 1 if anything differs inside the domain.
#   ./differential.sh [SEED ...]       by default the seeds 1 to 12, more than fourteen million commands
set -eu
here=$(cd "$(dirname "$0")" && pwd)
bin=$here/target/release
[ $# -gt 0 ] || set -- 1 2 3 4 5 6 7 8 9 10 11 12
"$here/build.sh"

failed=0
echo "exhaustive"
"$bin/commands" exhaustive | "$bin/compare" "$bin/oracle" "$bin/port" || failed=1
for list in base eof metadata; do
    echo "$list, seeds $*"
    for seed; do
        "$bin/commands" "$list" "$seed"
    done | "$bin/compare" "$bin/oracle" "$bin/port" || failed=1
done
exit "$failed"
