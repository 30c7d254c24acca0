#!/bin/sh
# Wireshark beside us: its CFDP dissector sees in PDUs that our library wrote what we meant. COUNT of each kind (2,000 if none is named) are
# written by the port's driver from a random list, put into a capture file and taken apart by tshark; each field is held against the
# command that the PDU was written from, not against our reader. Then the same with one bit of each PDU changed, which must be seen.
#   tools/wireshark.sh [COUNT [SEED]]
# Needs Debian's package tshark, Python 3 and the driver, which oracle/build.sh makes. DRIVER=PROGRAM names another of the same line
# protocol (oracle/README.md). It is no part of the gate, since tshark may be missing.
#
# What Wireshark knows less of than the standard, or otherwise, as seen of 4.0.17; the lists keep to what it knows:
# - The large file flag is a reserved bit to it, and every offset and size has 4 bytes: so no PDU has the flag.
# - Segmentation control and segment metadata flag are reserved bits too; their values are compared.
# - A checksum is shown and not judged, nor are reserved condition codes or widths that are not 1, 2, 4 or 8.
# - Condition codes have the names of an older issue: 9 is 'Check limit reached', where table 5-5 now has 'invalid file structure', and 10
#   (check limit reached) and 11 (unsupported checksum type) have none. The numbers are compared.
# - An EOF's fault location is taken apart only where it is longer than the header: the length of the data is tested against a place that
#   counts the header too. Otherwise it is left over as data, and with the CRC flag its first two bytes are taken for the checksum. Either
#   is compared.
# - Of a Metadata PDU the byte after the code is a bit of segmentation control and seven spare ones, as in that older issue: closure and
#   checksum type are compared as the one number that these seven are. Only the first option is taken apart: so there are none.
set -eu
cd "$(dirname "$0")/.."

missing() { echo "$1" >&2; exit 1; }
driver=${DRIVER:-oracle/target/release/port}
command -v tshark >/dev/null || missing "tshark is not here: Debian has it in the package tshark"
command -v python3 >/dev/null || missing "Python 3 is not here"
[ -x "$driver" ] || missing "$driver is not here: oracle/build.sh makes it"
tshark --version 2>/dev/null | head -n 1
python3 tools/wireshark.py "$driver" "${1:-2000}" "${2:-1}"
