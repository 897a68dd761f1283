#!/usr/bin/env bash
# Runs the C example libfido2.c, which registers and signs in with libfido2 and an in-memory key. If clang-format is
# installed, also checks the format of the C examples. Exits with 3 if a dependency is missing.
# shellcheck disable=SC1091,SC2154 # top, name and library are set by common.sh
set -euo pipefail
source "$(dirname "${BASH_SOURCE[0]}")/common.sh"
require_commands gcc "gcc libc6-dev" nm binutils
require_header fido.h libfido2-dev
require_header openssl/evp.h libssl-dev
require_in_memory_key
work=$(mktemp -d)
trap 'rm -rf "$work"' EXIT

parts=()
for part in libfido2 fido_device virtual_key software_keys; do
    parts+=("$top/examples/c/$part.c")
done
echo "$name: libfido2 $(print_version libfido2-dev), libcrypto $(print_version libssl-dev)"
compile -o "$work/static" "${parts[@]}" "$library/libhidlog.a" -lfido2 -lcrypto
"$work/static"
compile -o "$work/shared" "${parts[@]}" -L "$library" -l:libhidlog.so.1 "-Wl,-rpath,$library" -lfido2 -lcrypto
"$work/shared" >/dev/null
compile -g -fsanitize=address,undefined -fno-sanitize-recover=all -o "$work/checked" "${parts[@]}" \
    "$library/libhidlog.a" -lfido2 -lcrypto
"$work/checked" >/dev/null
echo "$name: the static library, the shared one, and the static one with address and undefined-behaviour checks"
if command -v clang-format >/dev/null; then
    find "$top/examples" -name '*.[ch]' -print0 | xargs -0 clang-format --dry-run -Werror \
        "--style=file:$top/examples/c/.clang-format"
    echo "$name: the C files of examples/ are formatted"
else
    echo "$name: the format was not checked (apt-get install clang-format)"
fi
