#!/usr/bin/env bash
# Tests the C library with C programs: its command functions (commands.c, show.c), in-memory keys (key.c), the causes of
# rejected inputs (causes.c, cause_codes.c), the key's credentials (credentials.c) and capacity (capacity.c), and
# recordings (recording.c). For each worked log, the output must equal that of the program hidlog. The programs are
# linked with the static and the shared library of release/, compiled with gcc's sanitizers, and if installed, with musl
# and for aarch64. Also checks that the libraries call only memcpy, memmove and memset, and that a C++ compiler accepts
# the headers. Exits with 3 if gcc is missing.
#
#     tests/c/run.sh                                      tests the libraries of release/
#     tests/c/run.sh LIBRARY COMPILER OPTIONS [WORD ..]   tests another library. COMPILER, and OPTIONS for linking, may
#                                                         have several words. WORD .. is a command that runs the
#                                                         compiled programs, such as qemu
set -euo pipefail
top=$(cd "$(dirname "${BASH_SOURCE[0]}")/../.." && pwd)
command -v gcc >/dev/null ||
    { echo "tests/c: gcc is missing (apt-get install gcc libc6-dev); nothing was run" >&2 && exit 3; }
work=$(mktemp -d)
trap 'rm -rf "$work"' EXIT
options=(-std=c11 -O2 -Wall -Wextra -Werror -I "$top/release")

fail() {
    echo "tests/c: $*"
    exit 1
}

# The worked logs of sessions that start without credentials.
logs=("$top"/examples/*.log "$top"/crates/hidlog_cli/data/capacity_64/*.log)

# Replays a log with the in-memory key in three ways (key.c), and compares each output, and the key's credentials, with
# those of the program hidlog. Skips a log that the program rejects: compare_replay LOG [WORD ..]
compare_replay() {
    "$top/release/hidlog" replay <"$1" >"$work/replayed" 2>/dev/null || return 0
    "${@:2}" "$work/key" <"$1" >"$work/held" || fail "the in-memory key fails for $1"
    cmp -s "$work/replayed" "$work/held" || fail "the in-memory key's output differs for $1"
    "${@:2}" "$work/key" recorded <"$1" >"$work/recorded" || fail "recording fails for $1"
    sed -n '/^[>tpks<]/p' "$work/replayed" | tr A-F a-f | cmp -s - "$work/recorded" ||
        fail "the recording differs for $1"
    "$top/release/hidlog" check "$work/recorded" >/dev/null || fail "hidlog check fails for the recording of $1"
    "$top/release/hidlog" live <"$1" >"$work/lived"
    "${@:2}" "$work/key" lines <"$1" >"$work/held" || fail "hidlog_key_replay_lines fails for $1"
    cmp -s "$work/lived" "$work/held" || fail "the output of hidlog_key_replay_lines differs for $1"
    "$top/release/hidlog" replay --save "$work/saved" <"$1" >"$work/replayed"
    "${@:2}" "$work/credentials" "$work/saved" <"$1" || fail "the credentials differ for $1"
    played=$((played + 1))
}

# Compares what the library's hidlog_show writes for a log in one form, plain or explained, with what `hidlog show`
# prints, including the error message: compare_show_form LOG PROGRAM_OPTION LIBRARY_ARGUMENT [WORD ..]
compare_show_form() {
    local status=0 expected=0
    "$top/release/hidlog" show "$2" <"$1" >"$work/shown" 2>"$work/error" || expected=$?
    # shellcheck disable=SC2086 # no word is no word
    "${@:4}" "$work/show" $3 <"$1" >"$work/held" 2>"$work/message" || status=$?
    [ "$status" = "$expected" ] || fail "showing $1 ends with $status, expected $expected"
    cmp -s "$work/shown" "$work/held" || fail "the shown text differs for $1"
    [ "$(head -1 "$work/error")" = "$(cat "$work/message")" ] || fail "the error message for $1 differs"
    shown=$((shown + 1))
}

# Compares the transaction that the library reports for each line with that in `hidlog show --json`:
# compare_transactions LOG [WORD ..]
compare_transactions() {
    { "$top/release/hidlog" show --json <"$1" 2>/dev/null || true; } | sed -nE \
        's/^\{"line":([0-9]+),"kind":"(packet|tick|presence|key|signature)"(.*"transaction":([0-9]+))?.*/\1 \4/p' |
        awk '{ print $1, $2 + 0 }' | sort -n >"$work/shown"
    { "${@:2}" "$work/show" transactions <"$1" 2>/dev/null || true; } | awk '
        { of[$1] = $2; for (word = 4; word <= NF; word++) if ($word ~ /^l/) of[substr($word, 2)] = 0 }
        END { for (line in of) print line, of[line] }' | sort -n >"$work/held"
    cmp -s "$work/shown" "$work/held" || fail "the transactions of lines differ for $1"
}

# Compares the message that the library reports for each packet with one that is worked out here: an initialization
# packet starts a message, and a continuation packet belongs to the last message in the same direction on the same
# channel. The log must have no packets out of sequence: compare_messages LOG [WORD ..]
compare_messages() {
    awk '
        { packet = $1 == ">" ? $3 : $2; at = $1 substr(packet, 1, 8) }
        $1 ~ /^[<>]$/ && substr(packet, 9, 1) ~ /[89a-f]/ { begun[at] = NR }
        $1 ~ /^[<>]$/ { print NR, begun[at] }
        $1 ~ /^[tpks]$/ { print NR, 0 }' "$1" >"$work/shown"
    "${@:2}" "$work/show" transactions <"$1" | cut -d" " -f1,3 >"$work/held"
    cmp -s "$work/shown" "$work/held" || fail "the messages of packets differ for $1"
}

# Compares how the library and the program show a log, in both forms, and which transactions they find: compare_log LOG
# [WORD ..]
compare_log() {
    compare_show_form "$1" --plain "" "${@:2}"
    compare_show_form "$1" --explain explain "${@:2}"
    compare_transactions "$@"
}

# Writes malformed logs: those that the fuzzer generates from seed 1.
write_malformed_logs() {
    mkdir "$work/hostile"
    python3 - "$top/tests/fuzz" "$work/hostile" <<'PYTHON'
import sys
from pathlib import Path

sys.path.insert(0, sys.argv[1])
from malformed_requests import hostile_log

for number in range(40):
    Path(sys.argv[2], f"{number}.log").write_bytes(hostile_log(1, number))
PYTHON
}

# Compares how the library and the program show each worked log, each malformed log, and the first 700 bytes of each
# log: compare_logs [WORD ..]
compare_logs() {
    shown=0
    for log in "${logs[@]}" "$work"/hostile/*.log; do
        compare_log "$log" "$@"
        head -c 700 "$log" >"$work/first_bytes"
        compare_log "$work/first_bytes" "$@"
    done
    for log in "$top"/examples/{registration,sign_in}.log; do
        compare_messages "$log" "$@"
    done
    [ "$shown" -ge 300 ] || fail "only $shown logs were shown"
    echo "tests/c: $((shown / 2)) logs shown like the program, in both forms, and their transactions"
}

# Runs the programs, each with the command WORD .. before it, if any: run_programs TITLE [WORD ..]
run_programs() {
    echo "tests/c: $1"
    "${@:2}" "$work/commands" "$top/examples"
    "${@:2}" "$work/key" invalid-calls
    "${@:2}" "$work/causes"
    "${@:2}" "$work/cause_codes"
    "${@:2}" "$work/capacity" 64
    "${@:2}" "$work/recording" "$work/recording.log"
    played=0
    for log in "${logs[@]}"; do
        compare_replay "$log" "${@:2}"
    done
    [ "$played" -ge 50 ] || fail "only $played logs were played"
    echo "tests/c: $played logs played on an in-memory key like the program"
    compare_logs "${@:2}"
}

# Builds the programs. COMPILER is a compiler, possibly with options, and the arguments are for linking: build_programs
# COMPILER ARGUMENT ..
build_programs() {
    local name
    # shellcheck disable=SC2086 # words of one argument
    for name in commands show key causes cause_codes credentials capacity recording; do
        $1 "${options[@]}" -o "$work/$name" "$top/tests/c/$name.c" "${@:2}"
    done
}

if [ $# -ge 3 ]; then
    write_malformed_logs
    # shellcheck disable=SC2086 # words of one argument
    build_programs "$2" "$1" $3
    run_programs "$1" "${@:4}"
    exit
fi
for library in libhidlog.a libhidlog-256.a aarch64/libhidlog.a; do
    calls=$(nm --undefined-only --format=just-symbols "$top/release/$library" | grep -v ':$' | sort -u | xargs)
    [ "$calls" = "memcpy memmove memset" ] || fail "$library calls $calls; expected only memcpy, memmove and memset"
done
write_malformed_logs
build_programs gcc "$top/release/libhidlog.a"
run_programs "the static library"
build_programs gcc -L "$top/release" -l:libhidlog.so.1 "-Wl,-rpath,$top/release"
run_programs "the shared library"
build_programs gcc -DHIDLOG_CAPACITY=256 "$top/release/libhidlog-256.a"
"$work/key" invalid-calls
"$work/capacity" 256
for log in "${logs[@]}"; do
    compare_replay "$log"
done
echo "tests/c: $played logs played on a key with capacity for 256 credentials"
build_programs gcc -g -fsanitize=address,undefined -fno-sanitize-recover "$top/release/libhidlog.a"
run_programs "with AddressSanitizer and UndefinedBehaviorSanitizer"
if command -v pkg-config >/dev/null; then
    for name in hidlog hidlog-256; do
        read -ra words < <(PKG_CONFIG_PATH=$top/release pkg-config --cflags --libs "$name")
        gcc -std=c11 -o "$work/capacity" "$top/tests/c/capacity.c" "${words[@]}" "-Wl,-rpath,$top/release"
        "$work/capacity" "$([ "$name" = hidlog ] && echo 64 || echo 256)"
    done
    echo "tests/c: pkg-config finds the libraries"
else
    echo "tests/c: pkg-config was not tested (apt-get install pkgconf)"
fi
if command -v g++ >/dev/null; then
    g++ -std=c++17 -Wall -Wextra -Werror -fsyntax-only -include "$top/release/hidlog_standard.h" -x c++ \
        "$top/release/hidlog_recording.h"
    echo "tests/c: C++ accepts the headers"
else
    echo "tests/c: the headers were not tested with C++ (apt-get install g++)"
fi
if command -v musl-gcc >/dev/null; then
    build_programs musl-gcc -static "$top/release/libhidlog.a"
    run_programs "the static library with musl"
else
    echo "tests/c: not run with musl (apt-get install musl-tools)"
fi
if command -v aarch64-linux-gnu-gcc >/dev/null && command -v qemu-aarch64-static >/dev/null; then
    build_programs aarch64-linux-gnu-gcc -static "$top/release/aarch64/libhidlog.a"
    run_programs "the static library for aarch64" qemu-aarch64-static
else
    echo "tests/c: not run for aarch64 (apt-get install gcc-aarch64-linux-gnu libc6-dev-arm64-cross qemu-user-static)"
fi
