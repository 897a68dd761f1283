#!/usr/bin/env bash
# Runs the tests of the Python package with the portable C library in place of the prebuilt one:
# tests/portable/python.sh [ARG ..]. The arguments are passed to pytest. Needs what tests/python/run.sh needs, and gcc,
# make and wabt; exits with 3 if something is missing.
set -euo pipefail
top=$(cd "$(dirname "${BASH_SOURCE[0]}")/../.." && pwd)
work=$(mktemp -d)
trap 'rm -rf "$work"' EXIT
"$top/bindings/c/sources.sh" "$work"
make --silent -C "$work" libhidlog.so.1
"$top/tests/python/run.sh" --library "$work/libhidlog.so.1" "$@"
