#!/usr/bin/env bash
# Runs the tests in tests/unit/ of the library crates: results that no contract specifies, and calls with extreme
# arguments. They run as a separate crate in a copy of the libraries, without proofs (rt try), so that they do not slow
# down `rt ci`. The time limit of each test is fifteen minutes, since the machine may be busy. Exits with 3 if rt is
# missing.
#
#     tests/unit.sh                   runs all tests
#     tests/unit.sh --fail-alloc N    runs all tests, makes the Nth allocation of each fail, and prints the results
set -euo pipefail
top=$(cd "$(dirname "${BASH_SOURCE[0]}")/.." && pwd)
command -v rt >/dev/null || { echo "tests/unit.sh: rt is missing; nothing was run" && exit 3; }
work=$(mktemp -d)
trap 'rm -rf "$work"' EXIT

libraries=(hid_packet hid_assemble ctap_cbor ctap_message fido_authdata cred_table authn_core token_session session_log
    session_walk session_show hidlog)
mkdir -p "$work/crates/row_tests/src"
cp "$top/HANDLES" "$work/"
for library in "${libraries[@]}"; do
    mkdir "$work/crates/$library"
    for part in src specs proofs; do
        [ ! -d "$top/crates/$library/$part" ] || cp -r "$top/crates/$library/$part" "$work/crates/$library/"
    done
    grep "^$library:" "$top/crates.txt"
done >"$work/crates.txt"
echo "row_tests: ${libraries[*]} arrayvec" >>"$work/crates.txt"
cp -r "$top/tests/unit/." "$work/crates/row_tests/src/"
find "$work/crates/row_tests/src" -name '*.in' -exec sh -c 'for file; do mv "$file" "${file%.in}"; done' sh {} +
cd "$work/crates/row_tests"
if [ $# -gt 0 ]; then
    rt try --test --seconds 900 "$@"
    exit
fi
rt try --test --seconds 900 >"$work/output" 2>&1 || { cat "$work/output" && exit 1; }
cat "$work/output"
# Check that every test in the sources has run.
count=$(grep -rhc '#\[test\]' src | awk '{ sum += $1 } END { print sum }')
grep -q "ok. $count passed; 0 failed" "$work/output" || { echo "tests/unit.sh: expected $count tests to pass" && exit 1; }
