#!/bin/sh
# Builds the same oracle over Debian's thiserror and num_enum in place of their stand-ins, and
# compares the answers of both builds: target-debian/release/oracle against target/release/oracle,
# on the list that the program `commands` prints for the seed (by default 1).
#   ./with-debian.sh [SEED]
# The two packages are installed if they are missing, for which apt-get and its rights are needed.
# Ends with 1 if an answer differs, but for one known difference that is counted apart.
set -eu
seed=${1:-1}
here=$(cd "$(dirname "$0")" && pwd)
out=$here/target-debian
packages="librust-thiserror-dev librust-num-enum-dev"

for package in $packages; do
    dpkg -s "$package" >/dev/null 2>&1 || apt-get install -y --no-install-recommends "$package"
done

# The same sources, but for two lines of a Cargo.toml, and Debian's folder as the only source.
rm -rf "$out/src"
mkdir -p "$out/src/.cargo" "$out/src/standin"
cp -r "$here/spacepackets" "$here/tools" "$here/tests" "$out/src/"
cp -r "$here/standin/crc" "$here/standin/bitbybit" "$out/src/standin/"
sed -i -e 's|^thiserror = .*|thiserror = "1"|' \
    -e 's|^num_enum = .*|num_enum = { version = "0.5", default-features = false }|' \
    "$out/src/spacepackets/Cargo.toml"
{
    printf '[workspace]\nresolver = "2"\nmembers = ["spacepackets", "tools"]\n\n'
    sed -n '/^\[profile/,$p' "$here/Cargo.toml"
} > "$out/src/Cargo.toml"
cat > "$out/src/.cargo/config.toml" <<'C'
[source.crates-io]
replace-with = "debian"
[source.debian]
directory = "/usr/share/cargo/registry"
C
(cd "$out/src" && cargo build --release --offline --target-dir "$out")
"$here/build.sh" oracle

for package in $packages; do
    dpkg-query -W "$package"
done
"$here/target/release/commands" "$seed" > "$out/commands.txt"
"$here/target/release/oracle" < "$out/commands.txt" > "$out/stand-ins.txt"
"$out/release/oracle" < "$out/commands.txt" > "$out/debian.txt"
awk -v seed="$seed" '
    # The num_enum of Debian has its own rule for a checksum type that the list lacks: README.md.
    function lacks_type(command, answer) {
        return command ~ /^metadata / && answer ~ /^err InvalidChecksumType / ||
            command ~ /^wmetadata / && answer ~ /^not made /
    }
    FILENAME == ARGV[1] { command[FNR] = $0; next }
    FILENAME == ARGV[2] { answer[FNR] = $0; lines = FNR; next }
    { compared++ }
    answer[FNR] != $0 { if (lacks_type(command[FNR], answer[FNR])) known++; else differ++ }
    END {
        if (compared != lines) { print "the answers are not equal in number"; exit 1 }
        printf "seed %s: %d answers compared, %d differ", seed, compared, differ
        printf " (and %d on a checksum type that the list lacks)\n", known
        exit differ > 0
    }' "$out/commands.txt" "$out/stand-ins.txt" "$out/debian.txt"
