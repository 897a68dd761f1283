#!/usr/bin/env bash
# Measures the startup cost and the stack use of the program hidlog: for each command, the instructions (callgrind) for
# a log with one INIT, and the smallest stack, in kB, with which the command can replay a whole session. Then measures
# the stack use of the C library's functions (bench/stack.c). Needs valgrind, gcc and Python 3.
#
# glibc clears and copies large blocks with the string instructions `rep stos` and `rep movs`, for which Valgrind counts
# each byte as an instruction: 140,000 of 221,000 for an INIT. A processor handles ten bytes or more of these per cycle,
# so the counts are misleading. Therefore a glibc tunable makes glibc use loops; the count without the tunable is in
# parentheses.
#
#     bench/start.sh [PROGRAM [LIBRARY]]        [default: release/hidlog and release/libhidlog.a]
set -euo pipefail
cd "$(dirname "${BASH_SOURCE[0]}")/.."
program=$(readlink -f "${1:-release/hidlog}")
library=$(readlink -f "${2:-release/libhidlog.a}")
work=$(mktemp -d)
trap 'rm -rf "$work"' EXIT
printf '> 0 ffffffff8600080001020304050607%098d\n' 0 >"$work/init"
"$program" replay <"$work/init" >"$work/log"

# Prints the number of instructions of a command, with these glibc tunables: count_instructions TUNABLES WORD ..
count_instructions() {
    GLIBC_TUNABLES=$1 valgrind --tool=callgrind --callgrind-out-file=/dev/null "$program" "${@:2}" <"$work/log" 2>&1 >/dev/null |
        sed -n 's/.*Collected : \([0-9]*\).*/\1/p'
}

loops=glibc.cpu.x86_rep_stosb_threshold=100000000:glibc.cpu.x86_rep_movsb_threshold=100000000
echo "instructions to start and to respond to an INIT (in parentheses: each byte of a string instruction counts as one):"
for words in replay live check quiet show --help --version "replay --load examples/example_com.snapshot"; do
    # shellcheck disable=SC2086  # the words must be split
    echo "$(count_instructions $loops $words) ($(count_instructions "" $words))  $words"
done
echo "smallest stack in kB for whole sessions:"
python3 - "$program" <<'PYTHON'
import ctypes
import resource
import subprocess
import sys

# Disables address space layout randomization, which would move the start of the stack by up to 8 kB at random.
ADDR_NO_RANDOMIZE = 0x0040000
SYSTEM = ctypes.CDLL(None)
SNAPSHOT = ["--load", "examples/example_com.snapshot"]
RUNS = [(words, "sign_in") for words in (["replay"], ["live"], ["check"], ["quiet"], ["show"], ["--help"])]
RUNS.append((["replay", *SNAPSHOT], "sign_in_again"))


def runs(words, log, kilobytes):
    def limit():
        SYSTEM.personality(ADDR_NO_RANDOMIZE)
        resource.setrlimit(resource.RLIMIT_STACK, (kilobytes * 1024, resource.RLIM_INFINITY))

    with open(f"examples/{log}.log") as file:
        return subprocess.run(
            [sys.argv[1], *words], stdin=file, stdout=subprocess.DEVNULL, env={}, preexec_fn=limit
        ).returncode == 0


for words, log in RUNS:
    print(next(stack for stack in range(8, 8192, 4) if runs(words, log, stack)), "", *words)
PYTHON
echo "stack of C library calls, in bytes:"
gcc -std=c11 -O2 -D_GNU_SOURCE -I release -o "$work/stack" bench/stack.c "$library" -lpthread
"$work/stack" examples/sign_in.log examples/example_com.snapshot
