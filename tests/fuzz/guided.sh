#!/usr/bin/env bash
# Runs the coverage-guided fuzzers, for SECONDS each: tests/fuzz/guided.sh SECONDS [NAME ..]
#
#     key      the functions of an in-memory key, compared with hidlog_replay for the same inputs (key_fuzz.c)
#     log      the command functions, which read a whole log (log_fuzz.c)
#     state    the bridges' state files (state_fuzz.c)
#     readers  the Python decoders of the package and of the conformance runner (readers.py)
#     page     the saved state of a key in a web page (page_state.mjs)
#
# The first two fuzz the verified core: release/hidlog.wasm, which wasm2c translates to C. A fuzzer starts with the
# inputs in corpus.tsv and the logs of this repository. It saves inputs that reach new code, and findings, in the folder
# $HIDLOG_CORPUS [default: a temporary folder, which is deleted], from which the next run starts as well;
# tests/fuzz/seeds.py --keep adds these inputs to corpus.tsv. Each fuzzer stops at its first finding, and the next one
# starts. Exits with 1 if there is a finding, and with 3 if a dependency is missing.
set -euo pipefail
top=$(cd "$(dirname "${BASH_SOURCE[0]}")/../.." && pwd)
print_usage() {
    sed -n '2,8s/^# \{0,1\}//p' "$0" >&2
    exit 2
}
[[ ${1-} =~ ^[1-9][0-9]*$ ]] || print_usage
seconds=$1
shift
[ $# -gt 0 ] || set -- key log state readers page
for name in "$@"; do
    [[ $name =~ ^(key|log|state|readers|page)$ ]] || print_usage
done
work=$(mktemp -d)
trap 'rm -rf "$work"' EXIT
found=${HIDLOG_CORPUS:-$work/found}
mkdir -p "$found"
# The runtime of wasm2c, and its options: each access checks the bounds of the memory. In wabt 1.0.36, which is in Debian
# 13, the runtime has more files and other options, and the module needs no initialization.
wasm2c=/usr/src/wasm2c
bounds=(-DWASM_RT_MEMCHECK_SIGNAL_HANDLER=0)
[ ! -e "$wasm2c/wasm-rt-mem-impl.c" ] ||
    bounds=(-DWASM_RT_USE_MMAP=0 -DWASM_RT_MEMCHECK_BOUNDS_CHECK=1 "-DZ_hidlog_init_module()=(void)0")
# shellcheck disable=SC2054 # the commas are clang's
checked=(clang -std=gnu11 -g -O1 -fsanitize=address,undefined -fno-sanitize-recover=all -Wall -Wextra -Werror
    "${bounds[@]}" -I "$work" -I "$top/release" -I "$wasm2c")

exit_skipped() {
    echo "tests/fuzz/guided.sh: $1 is missing (apt-get install $2); nothing was run" >&2
    exit 3
}

# Exits with 3 if a tool is missing that one of these fuzzers needs: require_tools NAME ..
require_tools() {
    local name
    for name in "$@"; do
        case $name in
        readers) python3 -c 'import cryptography' 2>/dev/null || exit_skipped cryptography python3-cryptography ;;
        page) command -v node >/dev/null || exit_skipped node nodejs ;;
        *)
            command -v clang >/dev/null || exit_skipped clang clang
            [ -e "$wasm2c/wasm-rt-impl.c" ] || exit_skipped wasm2c wabt
            echo '#include <openssl/evp.h>' | clang -E - >/dev/null 2>&1 || exit_skipped "the header openssl/evp.h" libssl-dev
            echo 'int LLVMFuzzerTestOneInput(const char *d, long n) { return d[n - n] & 0; }' >"$work/probe.c"
            clang -fsanitize=fuzzer "$work/probe.c" -o "$work/probe" 2>/dev/null ||
                exit_skipped libFuzzer libclang-rt-dev
            ;;
        esac
    done
}

# Translates the core to C, and compiles it with instrumentation for libFuzzer. The C code of wasm2c checks each memory
# access.
build_core() {
    local file
    [ ! -e "$work/core.o" ] || return 0
    "$top/tests/fuzz/seeds.py" "$work/seeds"
    wasm2c "$top/release/hidlog.wasm" -n hidlog -o "$work/module.c"
    # The names of wabt 1.0.36 become those of 1.0.32.
    sed -i -E 's/\bw2c_hidlog_(hidlog_\w+)/Z_hidlogZ_\1/g; s/\bw2c_hidlog_0x5F_heap_base\b/Z_hidlogZ___heap_base/g
        s/\bwasm2c_hidlog_(instantiate|free)\b/Z_hidlog_\1/g; s/\bw2c_hidlog\b/Z_hidlog_instance_t/g' "$work"/module.{c,h}
    clang -std=gnu11 -w -O1 -fsanitize=fuzzer-no-link "${bounds[@]}" -I "$wasm2c" -c "$work/module.c" -o "$work/core.o"
    for file in "$wasm2c"/wasm-rt-{,mem-}impl.c; do
        [ ! -e "$file" ] || clang -std=gnu11 -w -O1 "${bounds[@]}" -DWASM_RT_TRAP_HANDLER=module_trap \
            -c "$file" -o "$work/$(basename "$file" .c).o"
    done
    "${checked[@]}" -fsanitize=fuzzer-no-link -c "$top/tests/fuzz/module_key.c" -o "$work/module_key.o"
}

# Builds a libFuzzer target and runs it. MAX_LENGTH is the maximum length of its data: run_libfuzzer NAME MAX_LENGTH
# COMPILER_OPTION ..
run_libfuzzer() {
    local name=$1 longest=$2
    build_core
    "${checked[@]}" -fsanitize=fuzzer -o "$work/$name" "$top/tests/fuzz/${name}_fuzz.c" "$work"/{module_key,core,wasm-rt-*}.o \
        "${@:3}" -lm
    mkdir -p "$found/$name" "$work/seeds/$name"
    "$work/$name" -max_total_time="$seconds" -max_len="$longest" -artifact_prefix="$found/$name/finding_" \
        "$found/$name" "$work/seeds/$name" >"$work/output" 2>&1 ||
        { tail -40 "$work/output" && return 1; }
    echo "$name: $(sed -n 's/^Done //p' "$work/output"), $(grep -o 'cov: [0-9]* ft: [0-9]*' "$work/output" | tail -1)"
}

run_fuzzer() {
    local examples=$top/examples
    case $1 in
    key) run_libfuzzer key 4096 ;;
    log) run_libfuzzer log 16384 ;;
    state)
        run_libfuzzer state 29000 -I "$examples/c" -I "$top/bridges/ssh" "$top/bridges/ssh/state.c" \
            "$examples"/c/{virtual_key,private_file,software_keys,snapshot}.c -lcrypto
        ;;
    readers) "$top/tests/fuzz/readers.py" --seconds "$seconds" --keep "$found/readers" ;;
    page) node "$top/tests/fuzz/page_state.mjs" "$seconds" ;;
    esac
}

require_tools "$@"
status=0
for name in "$@"; do
    run_fuzzer "$name" || status=1
done
exit "$status"
