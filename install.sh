#!/bin/sh
# Installs the library, its header files, the programs and the command cfdp. Programs need Linux on x86-64 with its C library.
#   ./install.sh PREFIX
# What is not proved as it stands is proved first. CFDP_LIB=FOLDER (its full path) takes the libcfdp.a of that folder; without it
# link/archive.sh makes one.
# Nothing is written outside PREFIX, target/ and the crates' out/.
set -eu
stop() { echo "install: $*" >&2; exit 2; }
[ $# -eq 1 ] || stop "./install.sh PREFIX"
mkdir -p "$1" || stop "there is no folder $1"
prefix=$(cd "$1" && pwd -P)
cd "$(dirname "$0")"

[ -n "${CFDP_LIB:-}" ] || { link/archive.sh >&2; CFDP_LIB=target/staticlib; }
place=$prefix/libexec/cfdp
mkdir -p "$prefix/bin" "$prefix/include" "$prefix/lib/pkgconfig" "$place" "$prefix/share/doc/cfdp"
cp "$CFDP_LIB/libcfdp.a" "$prefix/lib/"
cp include/*.h "$prefix/include/"
cp bin/cfdp "$prefix/bin/"
cp LICENSE NOTICE "$prefix/share/doc/cfdp/"

for name in naklist pdulist nakstream nakdiff nakowed nakplan; do
    program=$(./run -n "$name")
    cp "$program" "$place/"
done

cat >"$place/run" <<'END'
#!/bin/sh
# Runs a program that was proved before it was installed: run NAME [WORDS]; with -n it prints the command, a word to a line.
here=$(cd "$(dirname "$0")" && pwd -P)
show=''
[ "${1:-}" != -n ] || { show=1; shift; }
[ -f "$here/${1:-.}" ] || { echo "run: there is no program ${1:-}" >&2; exit 2; }
name=$1
shift
set -- "$here/$name" "$@"
[ -z "$show" ] || { printf '%s\n' "$@"; exit 0; }
exec "$@"
END
chmod +x "$place/run"

cat >"$prefix/lib/pkgconfig/cfdp.pc" <<END
prefix=$prefix
includedir=\${prefix}/include
libdir=\${prefix}/lib

Name: cfdp
Description: a proved codec for the headers and the directive PDUs of CFDP
Version: $(sed -n 's/^#define CFDP_INTERFACE //p' include/cfdp.h)
Cflags: -I\${includedir}
Libs: -L\${libdir} -lcfdp
END
echo "installed: $prefix/bin/cfdp, lib/libcfdp.a, include/ and lib/pkgconfig/cfdp.pc"
