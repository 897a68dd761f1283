#!/usr/bin/env bash
# Links the program hidlog for aarch64: the object file of the verified code with system.c and the C library. The
# program is static and position-independent, like that for x86-64. Needs gcc-aarch64-linux-gnu and
# libc6-dev-arm64-cross.
#
#     packages/arm64/link.sh OBJECT PROGRAM
set -euo pipefail
[ $# = 2 ] || { echo "usage: packages/arm64/link.sh OBJECT PROGRAM" >&2; exit 2; }
here=$(cd "$(dirname "${BASH_SOURCE[0]}")" && pwd)
aarch64-linux-gnu-gcc -static-pie -Wl,--build-id=none -Wl,-z,relro,-z,now -s -std=c11 -O2 -fPIE -Wall -Wextra \
    -ffile-prefix-map="$here=." -o "$2" "$1" "$here/system.c"
[[ $(aarch64-linux-gnu-readelf -dW "$2") == *"Flags: NOW PIE"* && $(aarch64-linux-gnu-readelf -lW "$2") == *GNU_RELRO* ]] ||
    { echo "packages/arm64/link.sh: the linked program $2 is not position-independent, or its relocations are writable" >&2; exit 1; }
