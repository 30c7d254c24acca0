#!/bin/sh
# Streams of the differential run's NAKs, laid end to end and each cut in four ways, to the port's receiver; what it answers is compared
# with the NAKs as the Rust reads each from its whole buffer, and with where and how the documents refuse (../tools/src/streams.rs).
# The same for the same seed. The last line is 'seed SEED: N streams in four ways, M answers differ'; ends with 1 if any does.
#   oracle/tests/streams.sh [SEED [COUNT]]       by default seed 1 and 100,000 streams
# PORT names another driver.
set -eu
bin=$(cd "$(dirname "$0")/../target/release" && pwd)
seed=${1:-1} count=${2:-100000}
work=$(mktemp -d)
trap 'rm -rf "$work"' EXIT
mkfifo "$work/said" "$work/expected"
"$bin/streams" "$seed" "$count" | "${PORT:-$bin/port}" > "$work/said" &
"$bin/streams" answers "$seed" "$count" > "$work/expected" &
# Beside each other, line by line; an answer that is lacking differs too.
paste -d '\n' "$work/said" "$work/expected" | awk -v seed="$seed" -v count="$count" '
    NR % 2 { said = $0; next }
    { answers++; naks += gsub(/ nak /, " nak "); refused += / refused / }
    said != $0 || $0 == "" { if (differ++ < 5) print "said     " substr(said, 1, 300) "\nexpected " substr($0, 1, 300) }
    END {
        printf "%d answers, %d NAKs given, %d with a refusal\n", answers, naks, refused
        if (answers != 4 * count) differ++
        printf "seed %s: %d streams in four ways, %d answers differ\n", seed, count, differ
        exit differ > 0
    }'
