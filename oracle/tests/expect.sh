# What run.sh and port.sh share: where things are, a folder for their files, and the counting of what was seen.
here=$(cd "$(dirname "$0")" && pwd)
bin=$here/../target/release
work=$(mktemp -d)
trap 'rm -rf "$work"' EXIT
passed=0
failed=0

# expect NAME EXPECTED-FILE ACTUAL-FILE
expect() {
    if cmp -s "$2" "$3"; then
        passed=$((passed + 1))
    else
        failed=$((failed + 1))
        echo "failed: $1 (< expected, > seen)"
        diff "$2" "$3" || true
    fi
}
