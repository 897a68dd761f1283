#!/usr/bin/env bash
# Measures what a log line costs `hidlog replay`: instructions (callgrind), system calls (strace) and processor time.
# Also measures bench/peer, a C program that writes the same output. Each log has 1,000 or 100,000 lines of one kind:
# PINGs of 5 or of 57 bytes, authenticatorGetInfo, ticks or comments. The cost of a log without these lines is
# subtracted, to exclude the startup. Needs gcc, libssl-dev, valgrind, strace and Python 3.
#
#     bench/replay.sh [DIR]        DIR is the directory for the logs and outputs [default: a new one]
set -euo pipefail
here=$(cd "$(dirname "$0")" && pwd)
work=${1:-$(mktemp -d)}
mkdir -p "$work"
program=$here/../release/hidlog
gcc -std=c11 -D_GNU_SOURCE -O3 -march=x86-64-v2 -flto -Wno-deprecated-declarations -o "$work/peer" "$here"/peer/*.c -lcrypto

# Prints a log that begins with an INIT, which allocates channel 1, and has COUNT lines of one kind: print_log KIND
# COUNT
print_log() {
    python3 - "$1" "$2" <<'PYTHON'
import sys
kind, count = sys.argv[1], int(sys.argv[2])
packet = {"ping": "00000001810005" + b"hello".hex(), "long_ping": "00000001810039" + "61" * 57, "get_info": "0000000190000104"}.get(kind)
line = f"> 5 {packet.ljust(128, '0')}\n" if packet else {
    "tick": "t 5\n", "long_tick": "t 12345\n", "comment": "# a comment\n"}[kind]
print("> 0 " + "ffffffff8600080001020304050607".ljust(128, "0"))
sys.stdout.write(line * count)
PYTHON
}

count_instructions() {
    valgrind --tool=callgrind --callgrind-out-file=/dev/null "${@:2}" <"$1" 2>&1 >/dev/null |
        sed -n 's/.*Collected : \([0-9]*\).*/\1/p'
}

count_system_calls() {
    strace -f -c -o "$work/calls" "${@:2}" <"$1" >"$work/output"
    awk '$NF == "total" { print $4 }' "$work/calls"
}

# Prints the processor time per line of both programs in nanoseconds: measure_nanoseconds KIND COUNT. Runs the programs
# 25 times alternately and takes the medians, since a machine's speed varies. Call it only for long logs: for short
# ones, the startup takes most of the time.
measure_nanoseconds() {
    python3 - "$work" "$1" "$2" "$program" <<'PYTHON'
import resource, statistics, subprocess, sys

work, kind, count, program = sys.argv[1], sys.argv[2], int(sys.argv[3]), sys.argv[4]


def took(command, lines):
    before = resource.getrusage(resource.RUSAGE_CHILDREN)
    with open(f"{work}/{kind}.{lines}") as log, open(f"{work}/output", "w") as out:
        subprocess.run(command, stdin=log, stdout=out, check=True)
    after = resource.getrusage(resource.RUSAGE_CHILDREN)
    return after.ru_utime + after.ru_stime - before.ru_utime - before.ru_stime


programs = [program, "replay"], [f"{work}/peer"]
rounds = [[took(program, lines) for program in programs for lines in (count, 0)] for _ in range(25)]
whole, none, whole_c, none_c = (statistics.median(seconds) for seconds in zip(*rounds))
print(f"  {1e9 * (whole - none) / count:10.0f} {f'({1e9 * (whole_c - none_c) / count:.0f})':>10}", end="")
PYTHON
}

# Prints the cost of one line, by a function that prints the cost of a whole run:
# print_cost_per_line FUNCTION KIND COUNT PROGRAM ..
print_cost_per_line() {
    local measure=$1 kind=$2 count=$3
    shift 3
    awk -v all="$("$measure" "$work/$kind.$count" "$@")" -v none="$("$measure" "$work/$kind.0" "$@")" -v n="$count" \
        'BEGIN { printf "%.1f", (all - none) / n }'
}

printf '%-9s %7s  %21s  %21s  %21s\n' lines '' 'instructions (C)' 'system calls (C)' 'ns (C)'
for kind in ping long_ping get_info tick long_tick comment; do
    print_log "$kind" 0 >"$work/$kind.0"
    for count in 1000 100000; do
        print_log "$kind" "$count" >"$work/$kind.$count"
        "$program" replay <"$work/$kind.$count" >"$work/first"
        "$work/peer" <"$work/$kind.$count" | cmp - "$work/first"
        printf '%-9s %7s' "$kind" "$count"
        for measure in count_instructions count_system_calls; do
            printf '  %10s %10s' "$(print_cost_per_line $measure $kind $count "$program" replay)" \
                "($(print_cost_per_line $measure $kind $count "$work/peer"))"
        done
        if [ "$count" -gt 1000 ]; then
            measure_nanoseconds "$kind" "$count"
        fi
        printf '\n'
    done
done
