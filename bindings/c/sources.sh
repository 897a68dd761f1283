#!/usr/bin/env bash
# Writes the sources of the portable C library to a directory: translates release/hidlog.wasm to C, and copies the files
# that are written by hand.
#
#     bindings/c/sources.sh DIR
#
# The output depends only on the sources, release/ and the version of wabt. Needs wabt and Python 3; exits with 3 if
# wasm2c of wabt is missing.
set -euo pipefail
[ $# = 1 ] || { echo "usage: bindings/c/sources.sh DIR" >&2; exit 2; }
top=$(cd "$(dirname "${BASH_SOURCE[0]}")/../.." && pwd)
mkdir -p "$1"
to=$(cd "$1" && pwd)
"$top/bindings/c/generate.py" "$top/release/hidlog.wasm" "$to"
for name in bindings/c/{README.md,Makefile,hidlog.c,machine.h,program.c} LICENSE-{APACHE,MIT} examples/sign_in.log \
    release/hidlog{,_recording,_standard}.h; do
    install -m 644 "$top/$name" "$to/${name##*/}"
done
