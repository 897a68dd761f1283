#!/usr/bin/env bash
# Tests the bridges of bridges/uhid and bridges/ssh with invalid files, failing system calls and floods of packets,
# without /dev/uhid: a substitute in Python takes the place of the kernel's device. Exits with 3 if a dependency is
# missing.
#
#     tests/clients/bridges.sh          runs bridge_cases.py, bridge_recordings.py, bridge_users.py, and bridge_faults.py,
#                                       which lets each system call that accesses files fail
#     tests/clients/bridges.sh --all    lets each other system call fail as well
# shellcheck disable=SC1091,SC2154 # top, name and library are set by common.sh
set -euo pipefail
source "$(dirname "${BASH_SOURCE[0]}")/common.sh"
require_commands gcc "gcc libc6-dev" nm binutils python3 python3 prlimit util-linux strace strace
require_header fido.h libfido2-dev
require_header openssl/evp.h libssl-dev
require_header linux/uhid.h linux-libc-dev
require_in_memory_key
work=$(mktemp -d)
trap 'rm -rf "$work"' EXIT
chmod 755 "$work" # another user runs the bridge, too
parts=("$top/bridges/ssh/state.c" "$top"/examples/c/{virtual_key,private_file,software_keys,snapshot}.c)
bridge=("$top"/bridges/uhid/{uhid,packet_queue,user,options}.c "${parts[@]}" "$library/libhidlog.a" -lcrypto)
compile -I "$top/bridges/ssh" -o "$work/uhid" "${bridge[@]}"
compile -g -fsanitize=address,undefined -fno-sanitize-recover=all -I "$top/bridges/ssh" -o "$work/uhid_checked" \
    "${bridge[@]}"
compile -I "$top/bridges/ssh" -o "$work/sk_call" "$top/tests/clients/sk_call.c" "$top/bridges/ssh/hidlog_sk.c" \
    "$top/examples/c/fido_device.c" "${parts[@]}" "$library/libhidlog.a" -lfido2 -lcrypto
python3 "$top/tests/clients/bridge_cases.py" "$work/uhid" "$work/uhid_checked"
python3 "$top/tests/clients/bridge_recordings.py" "$work/uhid" "$work/uhid_checked"
python3 "$top/tests/clients/bridge_users.py" "$work/uhid_checked"
python3 "$top/tests/clients/bridge_faults.py" "$work/uhid" "$work/sk_call" "$@"
