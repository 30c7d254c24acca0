#!/bin/sh
# Proves the library and makes target/staticlib/libcfdp.a, for x86-64; the last line says for which machine.
#   link/archive.sh [MACHINE]       with aarch64 it makes target/staticlib/aarch64/libcfdp.a, for Linux on Arm, which the kit compiles too
# The crate cfdp_c is the library as C has it, and `rt lib` makes its archive. The kit's compiler is then told to make functions a part of
# their callers up to a greater size than it does by itself: the codec's are small, so that each can be read and proved, and a record that
# is handed from one to the next goes through memory. It halves the time of a short PDU (docs/BENCH.md). rt has no word for that, so it
# compiles once more in a copy of the kit, by links, whose compiler is called with it.
set -eu
cd "$(dirname "$0")/.."
machine=${1:-x86_64}
inlined="-mllvm -inline-threshold=1000"
case $machine in
    x86_64) folder=target/staticlib target='' ;;
    aarch64) folder=target/staticlib/aarch64 target='--target aarch64-unknown-linux-gnu' ;;
    *) echo "archive: no archive is made for $machine" >&2; exit 2 ;;
esac

(cd crates/cfdp_c && rt lib)

kit=$(cd "$(dirname "$(rt doc)")" && pwd -P)
room=$(mktemp -d)
trap 'rm -rf "$room"' EXIT
same=$room/kit
# links FOLDER NAME: the folder of the kit by links, but for one of its names
links() {
    mkdir -p "$same/$1"
    for file in "$kit/$1"/*; do
        [ "${file##*/}" = "$2" ] || ln -s "$file" "$same/$1/"
    done
}
links . bin
rm "$same/toolchain"
links toolchain bin
links toolchain/bin clang
cat >"$same/toolchain/bin/clang" <<END
#!/bin/sh
exec "$kit/toolchain/bin/clang" "\$@" $inlined
END
chmod +x "$same/toolchain/bin/clang"
# rt finds the kit by where its own files stand, and not by links to them.
links bin rt
rm "$same"/bin/*.py
cp "$kit/bin/rt" "$kit"/bin/*.py "$same/bin/"

# shellcheck disable=SC2086
(cd crates/cfdp_c && "$same/bin/rt" lib $target)
mkdir -p "$folder"
cp crates/cfdp_c/out/libcfdp_c.a "$folder/libcfdp.a.new"
mv "$folder/libcfdp.a.new" "$folder/libcfdp.a"
echo "$folder/libcfdp.a is for $machine"
