#!/bin/sh
# The command cfdp and install.sh, tried on cases whose outcome was written by hand. Programs and library are proved and made before
# (`rt ci` or ./run, link/archive.sh). Says what is amiss, and fails if anything is.
set -eu
cd "$(dirname "$0")/.."
room=$(mktemp -d)
trap 'rm -rf "$room"' EXIT
tried=0 amiss=0
cfdp=bin/cfdp

# answers STATUS WORDS..: cfdp on standard input's first part, up to a line '--', must print its second part and end with STATUS
answers() {
    status=$1 seen=0
    shift
    cat >"$room/case"
    awk '/^--$/ { exit } 1' "$room/case" | tr -d '\n' >"$room/in"
    awk 'behind; /^--$/ { behind = 1 }' "$room/case" >"$room/wanted"
    "$cfdp" "$@" <"$room/in" >"$room/seen" 2>"$room/said" || seen=$?
    tried=$((tried + 1))
    if [ "$seen" != "$status" ] || ! diff "$room/wanted" "$room/seen" >"$room/diff"; then
        amiss=$((amiss + 1))
        echo "cfdp $*: ends with $seen, not $status; wanted and seen:"
        cat "$room/diff" "$room/said"
    fi
}

# holds WHAT COMMAND..: the command must succeed
holds() {
    what=$1
    shift
    tried=$((tried + 1))
    "$@" >"$room/said" 2>&1 || { amiss=$((amiss + 1)); echo "not so: $what"; cat "$room/said"; }
}

# ---- naklist: document 01's N

answers 0 naklist -x <<'END'
28 00 11 00 01 02 03 08 00 00 00 00 00 00 03 E8 00 00 00 64 00 00 00 C8
--
nak 1 2 3
scope 0 1000
request 100 200
end 24
END
answers 1 naklist -x - <<'END'
0x28,0x00,0x11,0x00 01:02:03:08 00000000 000003e8 00000064
--
refused 1 20 24    # buffer short: 20 bytes are there, 24 are needed
END
answers 1 -j naklist -x <<'END'
48 00 11 00
--
{"file": "-", "at": 0, "refused": 2, "values": [2], "text": "version is not 1: 2"}
END
answers 1 naklist <<'END'
--
refused 1 0 4    # buffer short: 0 bytes are there, 4 are needed
END

# ---- all PDUs: a header with no data; N with an unknown directive; a large NAK with CRC flag clear, whose scope is up to 2^53 and whose
# pair is 2^53 - 1 to 2^53 + 1; five bytes of the next

answers 1 naklist -a -x -j <<'END'
20 00 00 00 01 02 03
28 00 11 00 01 02 03 0A 00 00 00 00 00 00 03 E8 00 00 00 64 00 00 00 C8
29 00 21 00 01 02 03 08 00 00 00 00 00 00 00 00 00 20 00 00 00 00 00 00 00 1F FF FF FF FF FF FF 00 20 00 00 00 00 00 01
28 00 11 00 01
--
{"file": "-", "at": 0, "refused": 1, "values": [7, 9], "text": "buffer short: 7 bytes are there, 9 are needed"}
{"file": "-", "at": 7, "refused": 7, "values": [10], "text": "unknown directive: 10"}
{"file": "-", "at": 31, "pdu": "nak", "source": 1, "sequence": 2, "destination": 3, "scope": [0, 9007199254740992], "requests": [[9007199254740991, "9007199254740993"]], "end": 40}
{"file": "-", "at": 71, "refused": 1, "values": [5, 7], "text": "buffer short: 5 bytes are there, 7 are needed"}
END
# after a header that has no length nothing more is asked for; were widths of 3 allowed, a further PDU would start 30 bytes on
answers 1 naklist -a -x <<'END'
28 00 11 22 01 02 03 08 00 00 00 00 00 00 03 E8 00 00 00 64 00 00 00 C8 00 00 00 28 00 11 00
--
# - at 0
refused 3 3    # entity width is not 1, 2, 4 or 8: 3
END
answers 0 naklist -a <<'END'
--
END

# ---- files

printf '28 00 09 00 01 02 03 08 00 00 00 00 00 00 00 00' >"$room/empty.hex"
answers 1 naklist -x "$room/empty.hex" - <<END
28
--
# $room/empty.hex at 0
nak 1 2 3
scope 0 0
end 16
# - at 0
refused 1 1 4    # buffer short: 1 bytes are there, 4 are needed
END

# ---- what is no command

for words in '' nosuch '-q naklist' 'nakstream -a' 'nakplan -x' 'nakdiff one' 'naklist - -' "naklist $room/nosuch"; do
    # shellcheck disable=SC2086
    answers 2 $words <<'END'
--
END
done
answers 2 naklist -x <<'END'
28 0
--
END
"$cfdp" --help >"$room/help"
holds 'help is given' grep -q 'exit status' "$room/help"

# ---- the words of the refusals are those of C and Rust

"$cfdp" refusals >"$room/words"
sed '1d; $d' link/refusals.txt >"$room/listed"
holds 'the refusals are those of link/refusals.txt' diff "$room/listed" "$room/words"

# ---- pdulist: an EOF with a fault location, the ACK of an EOF, a large Metadata PDU of a file of 2^53 + 1 bytes, N, and a Finished, which
# has no reader here

answers 1 pdulist -a -x -j <<'END'
20 00 0D 00 01 02 03 04 40 00 00 00 07 00 00 00 09 06 01 05
28 00 03 00 01 02 03 06 40 01
21 00 1C 00 01 02 03 07 43 00 20 00 00 00 00 00 01 05 61 2E 62 69 6E 05 62 5C 62 69 6E 02 02 61 62 05 00
28 00 11 00 01 02 03 08 00 00 00 00 00 00 03 E8 00 00 00 64 00 00 00 C8
28 00 02 00 01 02 03 05 00
--
{"file": "-", "at": 0, "pdu": "eof", "source": 1, "sequence": 2, "destination": 3, "condition": 4, "checksum": 7, "size": 9, "fault": 5, "end": 20}
{"file": "-", "at": 20, "pdu": "ack", "source": 1, "sequence": 2, "destination": 3, "of": 4, "condition": 0, "status": 1, "end": 10}
{"file": "-", "at": 30, "pdu": "metadata", "source": 1, "sequence": 2, "destination": 3, "closure": 1, "type": 3, "size": "9007199254740993", "from": "a.bin", "to": "b\\x5Cbin", "options": [[2, "6162"], [5, ""]], "end": 35}
{"file": "-", "at": 65, "pdu": "nak", "source": 1, "sequence": 2, "destination": 3, "scope": [0, 1000], "requests": [[100, 200]], "end": 24}
{"file": "-", "at": 89, "refused": 8, "values": [5], "text": "another directive than the one that is read: 5"}
END

# ---- nakstream: N, N, and a header of version 2; then N and a byte more

answers 1 nakstream -x -j <<'END'
28 00 11 00 01 02 03 08 00 00 00 00 00 00 03 E8 00 00 00 64 00 00 00 C8
28 00 11 00 01 02 03 08 00 00 00 00 00 00 03 E8 00 00 00 64 00 00 00 C8 48 00 11 00
--
{"file": "-", "pdu": "nak", "source": 1, "sequence": 2, "destination": 3, "scope": [0, 1000], "requests": [[100, 200]], "end": 24}
{"file": "-", "pdu": "nak", "source": 1, "sequence": 2, "destination": 3, "scope": [0, 1000], "requests": [[100, 200]], "end": 24}
{"file": "-", "refused": 2, "values": [2], "text": "version is not 1: 2"}
END
{ cat crates/naklist/stdin && printf '('; } >"$room/stream"
answers 0 nakstream "$room/stream" <<'END'
--
nak 1 2 3
scope 0 1000
request 100 200
end 24
END

# ---- nakdiff: N, and a NAK that asks for metadata and for 150 to 300; then one whose second pair is backwards

printf '28 00 19 00 01 02 03 08 00 00 00 00 00 00 03 E8 00 00 00 00 00 00 00 00 00 00 00 96 00 00 01 2C' >"$room/other.hex"
answers 0 nakdiff -x -j - "$room/other.hex" <<END
28 00 11 00 01 02 03 08 00 00 00 00 00 00 03 E8 00 00 00 64 00 00 00 C8
--
{"files": ["-", "$room/other.hex"], "metadata": [0, 1], "only": [[1, 100, 150], [2, 200, 300]], "ranges": 2}
END
answers 1 nakdiff -x "$room/other.hex" - <<'END'
28 00 19 00 01 02 03 08 00 00 00 00 00 00 03 E8 00 00 00 64 00 00 00 C8 00 00 01 2C 00 00 00 C8
--
refused 18 2 2    # pair or range out of order: NAK 2, pair 2
END
# The program itself says what it cannot open, in the system's words.
printf 'nosuch: No such file or directory\n' >"$room/wanted"
./run nakdiff nosuch "$room/other.hex" >"$room/seen" 2>&1 || :
holds 'nakdiff names a file that is not there' cmp "$room/wanted" "$room/seen"

# ---- nakowed: N was heard, 120 to 150 was resent, then 100 to 200; then a range that is backwards

printf '%s' '01 0018 2800110001020308 00000000 000003E8 00000064 000000C8' ' 02 0010 0000000000000078 0000000000000096' >"$room/log.hex"
answers 0 nakowed -x -j "$room/log.hex" <<END
--
{"file": "$room/log.hex", "at": 0, "owed": [[100, 200]]}
{"file": "$room/log.hex", "at": 27, "owed": [[100, 120], [150, 200]]}
{"file": "$room/log.hex", "end": 46}
END
printf ' 02 0010 0000000000000064 00000000000000C8 02 0010 0000000000000002 0000000000000001' >>"$room/log.hex"
answers 1 nakowed -x "$room/log.hex" <<'END'
--
at 0
owed 100 200
at 27
owed 100 120
owed 150 200
at 46
refused 18 65 at 65    # pair or range out of order: at 65
END
answers 1 nakowed -x -j <<'END'
03 0000
--
{"file": "-", "refused": 26, "values": [0], "text": "log entry cut, of an unknown tag or of a wrong length: at 0", "at": 0}
END

# ---- nakplan: of 0 to 1000 there is 0 to 100 and 200 to 500, and a packet of 24 bytes holds one request; its plan, and one that lacks a NAK

printf '%s\n' 'header 0 0 0 0 0 0 0 0 1 1 1 2 1 3' 'packet 24' 'scope 0 1000' 'received 0 100' 'received 200 500' >"$room/task"
answers 0 nakplan "$room/task" <<'END'
--
nak 0 200
request 100 200
nak 200 1000
request 500 1000
end 2 2
END
answers 0 nakplan -j "$room/task" <<END
--
{"file": "$room/task", "nak": [0, 200], "requests": [[100, 200]]}
{"file": "$room/task", "nak": [200, 1000], "requests": [[500, 1000]]}
{"file": "$room/task", "naks": 2, "requests": 2}
END
{ cat "$room/task" && "$cfdp" nakplan "$room/task"; } >"$room/plan"
answers 0 nakplan -j "$room/plan" <<END
--
{"file": "$room/plan", "accepted": true}
END
{ cat "$room/task" && echo 'nak 0 1000'; } >"$room/plan"
answers 1 nakplan "$room/plan" <<'END'
--
not accepted
END
echo 'packet 3' >>"$room/task"
answers 1 nakplan -j "$room/task" <<END
--
{"file": "$room/task", "line": 6, "text": "says what was said before"}
END

# ---- installed

if [ -f target/staticlib/libcfdp.a ]; then
    CFDP_LIB=$PWD/target/staticlib holds 'install.sh installs' ./install.sh "$room/there"
    cfdp=$room/there/bin/cfdp
    answers 0 naklist -j crates/naklist/stdin <<'END'
--
{"file": "crates/naklist/stdin", "at": 0, "pdu": "nak", "source": 1, "sequence": 2, "destination": 3, "scope": [0, 1000], "requests": [[100, 200]], "end": 24}
END
else
    echo "wrapper: nothing is installed: link/archive.sh has made no library yet"
fi
if [ -d "$room/there" ] && command -v cc >/dev/null && command -v pkg-config >/dev/null; then
    export PKG_CONFIG_PATH="$room/there/lib/pkgconfig"
    # shellcheck disable=SC2046
    holds 'a program compiles with what pkg-config says' \
        cc -std=c99 link/c/typed.c $(pkg-config --cflags --libs cfdp) -o "$room/typed"
    holds 'and runs' "$room/typed"
else
    echo "wrapper: nothing is compiled with an installed library: cc, pkg-config and the library are not all here"
fi

echo "wrapper: $tried tried, $amiss amiss"
[ "$amiss" = 0 ]
