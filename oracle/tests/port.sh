#!/bin/sh
# Checks the port's driver and the comparer that ../build.sh built: the port gives the answers of own.expected; port and Rust agree on
# document 01's cases, on the lines of silent.txt, on streams that are cut and on the replay list; the comparer counts each wrong answer
# that is put in on the way; two NAKs compared, logs, and plans of NAKs are as document 02 says; and the order of refusals is that of
# docs/RULES.md.
# The last line is 'N passed, M failed'; ends with 1 if anything failed.
set -eu
. "$(dirname "$0")/expect.sh"

# compared NAME LIST PORT EXPECTED: the comparer's last line and how it ends
compared() {
    end=0
    "$bin/compare" "$bin/oracle" "$3" < "$2" > "$work/said" || end=$?
    { tail -n 1 "$work/said"; echo "$end"; } > "$work/seen"
    printf '%b' "$4" > "$work/expected"
    expect "$1" "$work/expected" "$work/seen"
}

# changed NAME LIST SED-SCRIPT COUNTS: the list with one answer of the port's changed
changed() {
    printf '#!/bin/sh\n"%s/port" | sed "%s"\n' "$bin" "$3" > "$work/wrong"
    chmod +x "$work/wrong"
    compared "$1" "$2" "$work/wrong" "$4, 1 differing\\n1\\n"
}

# wrong NAME SED-SCRIPT: document 01's cases, changed
wrong() {
    changed "$1" "$work/cases" "$2" '53 commands: 45 compared, 8 outside the domain'
}

# wrong_later NAME SED-SCRIPT: an EOF and an ACK, each read and written, changed
wrong_later() {
    changed "$1" "$work/later" "$2" '5 commands: 4 compared, 1 outside the domain'
}

# Document 01's cases, without the three lines at the end, of which the last is no command.
head -n -3 "$here/smoke.txt" > "$work/cases"

"$bin/port" < "$here/own.txt" > "$work/seen"
expect "own.txt" "$here/own.expected" "$work/seen"

compared "document 01's cases" "$work/cases" "$bin/port" \
    '53 commands: 45 compared, 8 outside the domain, 0 differing\n0\n'
compared "silent.txt" "$here/silent.txt" "$bin/port" \
    '63 commands: 8 compared, 53 outside the domain, 2 that the port lacks, 0 differing\n0\n'
compared "a line that is no command" "$here/smoke.txt" "$bin/port" \
    '55 commands: 46 compared, 9 outside the domain, 1 differing\n1\n'

# Line 6 asks a checksum, line 12 reads a buffer that is too short, line 49 writes a header.
wrong "another checksum" '6s/65535/65534/'
wrong "another needed length" '12s/4\$/5/'
wrong "another refusal" '12s/refused 1/refused 6/'
wrong "another word for the domain" '6s/in/out/'
wrong "a byte beyond the written ones changed" '49s/ee\$/ef/'
wrong "a buffer not shown" '49s/ buf.*//'
wrong "a panic for an answer" '49s/ok 7/panic/'
wrong "no last answer" '\$d'

# Inside the domain, and last an ACK whose direction the Rust's reader works out anew.
cat > "$work/later" <<'C'
eof 20 00 0D 00 01 02 03 04 40 00 00 00 07 00 00 00 09 06 01 05
ack 28 00 03 00 01 02 03 06 40 01
weof 0 0 0 0 0 0 0 0 1 1 1 2 1 3 4 7 9 1:5 21*EE
wack 0 0 0 0 0 0 0 0 1 1 1 2 1 3 6 0 1 10*EE
ack 20 00 03 00 01 02 03 06 40 01
C
compared "EOF and ACK" "$work/later" "$bin/port" \
    '5 commands: 4 compared, 1 outside the domain, 0 differing\n0\n'
wrong_later "another fault location" '1s/1:5/1:6/'
wrong_later "another direction" '2s/ok 0 1/ok 0 0/'
wrong_later "a byte beyond a written EOF changed" '3s/ee\$/ef/'
wrong_later "another refusal of a directive" '4s/17/16/'
changed "numbers of no form outside the domain" "$work/later" '5s/ok/stray/' \
    '5 commands: 5 compared, 0 outside the domain'

# second COMMAND EXPECTED: the port's answers against document 02, written a second time
second() {
    "$bin/commands" "$1" 1 > "$work/asked"
    "$bin/port" < "$work/asked" > "$work/answers"
    "$here/document02.py" "$work/asked" "$work/answers" | tail -n 1 > "$work/seen" || true
    echo "$2" > "$work/expected"
    expect "document02.py, commands $1 1" "$work/expected" "$work/seen"
}

second eof "188188 checked, 0 differ"
# The first answer of an EOF with another file checksum.
sed '0,/ sum [0-9]*/s// sum 4294967296/' "$work/answers" > "$work/changed"
"$here/document02.py" "$work/asked" "$work/changed" | tail -n 1 > "$work/seen" || true
echo "188188 checked, 1 differ" > "$work/expected"
expect "document02.py with a wrong answer" "$work/expected" "$work/seen"

second metadata "100438 checked, 0 differ"
# The first answer of a Metadata PDU with another file size.
sed '0,/ size [0-9]*/s// size 1/' "$work/answers" > "$work/changed"
"$here/document02.py" "$work/asked" "$work/changed" | tail -n 1 > "$work/seen" || true
echo "100438 checked, 1 differ" > "$work/expected"
expect "document02.py with a wrong Metadata PDU" "$work/expected" "$work/seen"

# streamed NAME DRIVER COUNT: the receiver on 300 streams, each cut in four ways
streamed() {
    PORT=$2 "$here/streams.sh" 1 300 | tail -n 1 > "$work/seen" || true
    echo "seed 1: 300 streams in four ways, $3 answers differ" > "$work/expected"
    expect "$1" "$work/expected" "$work/seen"
}

streamed "streams" "$bin/port" 0
# One call of the second answer takes a byte more.
printf '#!/bin/sh\n"%s/port" | sed "2s/ 1 more/ 2 more/"\n' "$bin" > "$work/wrong"
streamed "streams with a wrong answer" "$work/wrong" 1
printf '#!/bin/sh\n"%s/port" | sed "7s/window [0-9]*/window 65536/"\n' "$bin" > "$work/wrong"
streamed "streams with another window" "$work/wrong" 1

# by_hand NAME: the port's answers to a list of commands, with those that were written by hand
by_hand() {
    "$bin/port" < "$here/$1.txt" > "$work/seen"
    expect "$1.txt" "$here/$1.expected" "$work/seen"
}

# figures NAME MODEL ANSWERS EXPECTED: the last line of what a model says of answers to $work/asked, and how it ends
figures() {
    end=0
    "$here/${2%% *}" "${2#* }" "$work/asked" "$3" > "$work/said" || end=$?
    { tail -n 1 "$work/said"; echo "$end"; } > "$work/seen"
    printf '%b' "$4" > "$work/expected"
    expect "$1" "$work/expected" "$work/seen"
}

# modelled MODEL COUNT SED-SCRIPT: the answers to $work/asked against document 02 written a second time, and with one answer changed
modelled() {
    "$bin/port" < "$work/asked" > "$work/answers"
    figures "${1%% *}" "$1" "$work/answers" "$2 checked, 0 differ\\n0\\n"
    sed "$3" "$work/answers" > "$work/changed"
    figures "${1%% *} with a wrong answer" "$1" "$work/changed" "$2 checked, 1 differ\\n1\\n"
}

# Two NAKs compared: another side in the first answer that has a range.
by_hand differ
"$here/differ.py" list 1 100000 > "$work/asked"
modelled "differ.py check" 100000 '0,/,1,/s//,2,/'

# A log run, and logs that come to 256 ranges: another offset in the first answer that is accepted.
by_hand owed
"$here/owed.py" limits | "$bin/port" | "$here/owed.py" ended > "$work/seen"
"$here/owed.py" wanted > "$work/expected"
expect "owed.py, 256 ranges" "$work/expected" "$work/seen"
"$here/owed.py" list 1 100000 > "$work/asked"
modelled "owed.py check" 100000 '0,/^ok at [0-9]*/s//ok at 1/'

# Plans of NAKs, which the Rust lacks: the first plan that is not accepted, taken for one that is.
by_hand plans
grep '^[cp]' "$here/plans.txt" | sed -n '1p;$p' | "$bin/oracle" > "$work/seen"
printf '%s\n' "bad the Rust has no such command" "bad 1048577 lent numbers" > "$work/expected"
expect "plans asked of the Rust" "$work/expected" "$work/seen"
"$here/plans.py" make 1 120000 > "$work/asked"
modelled "plans.py judge" 120237 '0,/ok not accepted/s//ok accepted/'

# page NAME EXPECTED PAGE: whether the order of refusals on that page for users is the port's
page() {
    "$here/rules.py" "$work/asked" "$work/answers" "$3" > "$work/said" && echo as the port > "$work/seen" || echo otherwise > "$work/seen"
    echo "$2" > "$work/expected"
    expect "$1" "$work/expected" "$work/seen"
}

"$here/faults.py" 1500 1 > "$work/asked"
"$bin/port" < "$work/asked" > "$work/answers"
page "docs/RULES.md" "as the port" "$here/../../docs/RULES.md"
sed 's/12, 9, 10, 11/9, 12, 10, 11/' "$here/../../docs/RULES.md" > "$work/page"
page "docs/RULES.md with another order" "otherwise" "$work/page"
sed 's/needs h + 6 + w/needs h + 5 + w/' "$here/../../docs/RULES.md" > "$work/page"
page "docs/RULES.md with another length" "otherwise" "$work/page"

# replayed NAME LIST EXPECTED: the last line of a replay
replayed() {
    "$bin/replay" < "$2" | tail -n 1 > "$work/seen" || true
    echo "$3" > "$work/expected"
    expect "$1" "$work/expected" "$work/seen"
}

"$bin/replay_list" > "$work/list" 2> "$work/said"
replayed "replay list" "$work/list" "6230 replayed, 0 differ"
# The byte at 100 is in an answer.
{
    head -c 100 "$work/list"
    printf '\377'
    tail -c +102 "$work/list"
} > "$work/changed"
replayed "replay list with a wrong answer" "$work/changed" "6230 replayed, 1 differ"

echo "$passed passed, $failed failed"
[ "$failed" -eq 0 ]
