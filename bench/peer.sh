#!/usr/bin/env bash
# Compares how many instructions `hidlog replay` and an equivalent C program (peer/peer.h) execute for a PING, a
# getInfo, a registration and a sign-in (flows.py). First checks that both programs write the same output for these
# logs, and counts the worked logs for which they do. Needs gcc, libssl-dev, valgrind and Python 3.
#
#     bench/peer.sh [PROGRAM]        PROGRAM is the program hidlog [default: release/hidlog]
set -euo pipefail
cd "$(dirname "${BASH_SOURCE[0]}")/.."
program=${1:-release/hidlog}
work=$(mktemp -d)
trap 'rm -rf "$work"' EXIT
gcc -std=c11 -D_GNU_SOURCE -O3 -march=x86-64-v2 -flto -Wall -Wextra -Werror -Wno-deprecated-declarations -o "$work/peer" \
    bench/peer/*.c -lcrypto

# Returns whether both programs succeed for a log and write the same output: is_same_output LOG
is_same_output() {
    "$program" replay <"$1" >"$work/wanted" 2>"$work/fault" && "$work/peer" <"$1" >"$work/written" &&
        cmp -s "$work/wanted" "$work/written"
}

python3 bench/flows.py --logs "$work"
for flow in "$work"/*.log; do
    is_same_output "$flow" || { echo "bench/peer.sh: hidlog and the C program write different outputs for $flow" >&2; exit 1; }
done
count=0
for log in crates/hidlog_cli/data/capacity_64/*.log; do
    ! is_same_output "$log" || count=$((count + 1))
done
echo "same output for each flow, and for $count worked logs"
# Prints these columns: the name of the flow; the instructions of hidlog; those of the C program without vector
# instructions for SHA-256, and hidlog's divided by them; those of the C program with the SHA-256 that OpenSSL selects,
# and hidlog's divided by them.
paste <(python3 bench/flows.py "$program") <(OPENSSL_ia32cap=0:0 python3 bench/flows.py "$work/peer") \
    <(python3 bench/flows.py "$work/peer") |
    awk '{ printf "%-12s %8d  %8d %6.2f  %8d %6.2f\n", $1, $2, $4, $2 / $4, $6, $2 / $6 }'
