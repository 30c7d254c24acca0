#!/bin/sh
# Checks the oracle that ../build.sh built: the Rust's files are as published, document 01's cases
# get the answers written by hand in smoke.expected, the lines of silent.txt those recorded from the
# Rust, naklist prints what document 01 says, and the kept replay list is the one that is written.
# The last line is 'N passed, M failed'; ends with 1 if anything failed.
set -eu
. "$(dirname "$0")/expect.sh"

# lines NAME: the answers to NAME.txt, each line a case, copied ones left out
lines() {
    "$bin/oracle" < "$here/$1.txt" > "$work/answers"
    count=$(wc -l < "$here/$1.txt")
    for file in "$here/$1.expected" "$work/answers"; do
        [ "$(wc -l < "$file")" -eq "$count" ] || { echo "failed: $file: not $count lines"; exit 1; }
    done
    n=0
    while [ "$n" -lt "$count" ]; do
        n=$((n + 1))
        sed -n "${n}p" "$here/$1.expected" > "$work/expected"
        sed -n "${n}p" "$work/answers" > "$work/seen"
        case $(head -c 1 "$work/expected") in '' | '#') continue ;; esac
        expect "$1.txt line $n" "$work/expected" "$work/seen"
    done
}

# naklist BYTES-IN-OCTAL EXPECTED-TEXT
naklist() {
    printf '%b' "$1" | "$bin/naklist" > "$work/seen" || true
    printf '%b' "$2" > "$work/expected"
    expect "naklist" "$work/expected" "$work/seen"
}

# full REC LIST LENGTH PAIRS: a NAK of the most pairs is written and read back
full() {
    written=$(echo "write $1 0 1000 $2 $3*00" | "$bin/oracle")
    echo "read ${written##* }" | "$bin/oracle" | sed 's/.* count/count/; s/requests.*//' > "$work/seen"
    echo "count $4 end $3 " > "$work/expected"
    expect "$4 pairs" "$work/expected" "$work/seen"
}

# truncated LIST LENGTH D: more pairs than fit are written, with the low 16 bits of the length
truncated() {
    echo "write 0 1 0 0 0 0 0 0 1 1 1 2 1 3 0 1000 $1 $2*00" | "$bin/oracle" |
        cut -d ' ' -f 1-18 > "$work/seen"
    echo "out ok 0 1 0 0 0 0 0 $3 1 1 1 2 1 3 written $2" > "$work/expected"
    expect "$1" "$work/expected" "$work/seen"
}

# The Rust's own files, byte for byte.
: > "$work/expected"
(cd "$here/../spacepackets" && sha256sum -c --quiet SHA256SUMS) > "$work/seen" 2>&1 || true
expect "SHA256SUMS" "$work/expected" "$work/seen"

# The comparer's own tests: the same answers are the same, wrong ones differ.
(cd "$here/.." && cargo test --offline -q --lib -p tools) > "$work/said" 2>&1 || true
grep -o '8 passed; 0 failed' "$work/said" > "$work/seen" || cp "$work/said" "$work/seen"
echo '8 passed; 0 failed' > "$work/expected"
expect "the comparer's own tests" "$work/expected" "$work/seen"

# The list that the program of crates/replay is run on has the Rust's answers.
"$bin/replay_list" > "$work/seen" 2> "$work/said"
expect "crates/replay/stdin" "$here/../../crates/replay/stdin" "$work/seen"

lines smoke
lines silent

# The lines that docs/DIFFERENCES.md gives as examples are asked of both sides.
: > "$work/expected"
grep -o '`w\{0,1\}\(eof\|ack\|metadata\) [^`]*`' "$here/../../docs/DIFFERENCES.md" | tr -d '`' > "$work/examples"
for list in silent own; do
    grep -vxFf "$here/$list.txt" "$work/examples" > "$work/seen" || true
    expect "the examples of docs/DIFFERENCES.md in $list.txt" "$work/expected" "$work/seen"
done

full "0 1 0 0 0 0 0 0 1 1 1 2 1 3" "n:8190*100,200" 65536 8190
full "0 1 0 0 1 0 0 0 1 1 1 2 1 3" "l:4094*100,200" 65528 4094
truncated "n:8191*100,200" 65544 1
truncated "n:8300*100,200" 66416 873

first20='\0050\0000\0021\0000\0001\0002\0003\0010\0000\0000\0000\0000\0000\0000\0003\0350\0000\0000\0000\0144'
naklist "$first20\\0000\\0000\\0000\\0310" 'nak 1 2 3\nscope 0 1000\nrequest 100 200\nend 24\n'
naklist "$first20" 'refused 1 20 24\n'

echo "$passed passed, $failed failed"
[ "$failed" -eq 0 ]
