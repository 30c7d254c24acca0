#!/bin/sh
# The library as its users have it. Compiles each header file by itself, strictly, as C and as C++; links the archive for this machine into a
# program in C and one in Rust, and compares what they print with expected.txt, which was written by hand from document 01. A second program
# in C receives a stream in fragments, and is compared with receive.txt, written by hand likewise. Then the same through the typed header, as C
# and as C++, and through the crate of bindings/rust, with typed.txt and refusals.txt behind it.
# What the machine has no compiler for is said and not run; any failure fails.
set -eu
cd "$(dirname "$0")/.."
out=target/link
archive=target/staticlib/libcfdp.a
strict='-Wall -Wextra -Werror -pedantic -Wconversion'
mkdir -p "$out"

say() { echo "link: $*"; }
here() { command -v "$1" >/dev/null; }
fail() { say "$*" >&2; exit 1; }

# header LANGUAGE STANDARD COMPILER..: by each of the compilers that is here
header() {
    language=$1 standard=$2 by=''
    shift 2
    for compiler; do
        here "$compiler" || continue
        for file in include/*.h; do
            # shellcheck disable=SC2086
            echo "#include \"${file#include/}\"" | "$compiler" "-std=$standard" $strict -Iinclude -fsyntax-only -x "$language" - ||
                fail "$compiler does not take $file as $standard"
        done
        by="$by $compiler"
    done
    say "the header files are taken as $standard by:${by:- no compiler, as there is none}"
}

# printed LANGUAGE PROGRAM [EXPECTED]
printed() {
    "$2" >"$out/printed.txt"
    diff "${3:-link/expected.txt}" "$out/printed.txt" || fail "the program in $1 printed something else"
    say "the program in $1 prints what was written by hand"
}

header c c99 cc gcc clang
header c++ c++11 c++ g++ clang++
here cc || { say "nothing is linked: there is no cc"; exit 0; }

link/archive.sh >"$out/archive.log" 2>&1 || { cat "$out/archive.log" >&2; exit 1; }
say "$(tail -n 1 "$out/archive.log")"

# Nothing allocates or panics: beside the compiler's own copies of memory the archive asks for no function of anyone.
if here nm; then
    asked=$(nm -u "$archive" | awk '$1 == "U" && $2 !~ /^mem(cpy|set|move)$/ { print $2 }')
    [ -z "$asked" ] || fail "the archive asks for $asked"
else
    say "what the archive asks for is not looked at: there is no nm"
fi

# shellcheck disable=SC2086
cc -std=c99 $strict -O2 -Iinclude link/c/main.c "$archive" -o "$out/c"
printed C "$out/c"
# shellcheck disable=SC2086
cc -std=c99 $strict -O2 -Iinclude link/c/receive.c "$archive" -o "$out/receive"
"$out/receive" >"$out/receive.txt"
diff link/receive.txt "$out/receive.txt" || fail "the receiver in C printed something else"
say "the receiver in C prints what document 02 says"

# The typed programs have no answer's bare numbers, and more cases.
{ grep -v '^numbers ' link/expected.txt && cat link/typed.txt link/refusals.txt; } >"$out/typed.txt"
# shellcheck disable=SC2086
cc -std=c99 $strict -O2 -Iinclude link/c/typed.c "$archive" -o "$out/typed"
printed 'C, typed,' "$out/typed" "$out/typed.txt"
if here c++; then
    # shellcheck disable=SC2086
    c++ -std=c++11 $strict -O2 -Iinclude -x c++ link/c/typed.c -x none "$archive" -o "$out/typed++"
    printed 'C++, typed,' "$out/typed++" "$out/typed.txt"
else
    say "the program in C++ is not run: there is no c++"
fi

if here cargo; then
    cargo build --quiet --release --offline --locked --manifest-path link/rust/Cargo.toml --target-dir "$out/cargo"
    printed Rust "$out/cargo/release/link"
    cargo build --quiet --release --offline --locked --manifest-path bindings/rust/Cargo.toml --target-dir "$out/cargo" --example cases
    printed 'Rust, typed,' "$out/cargo/release/examples/cases" "$out/typed.txt"
else
    say "the programs in Rust are not run: there is no cargo"
fi
