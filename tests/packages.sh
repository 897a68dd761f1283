#!/usr/bin/env bash
# Builds the packages twice, compares them byte for byte, and tests each as its users use it: runs the cases of
# tests/program with the command hidlog of the tarball, the Debian packages, the wheel and the npm package; builds a C
# program with the tarball and with libhidlog-dev; loads the npm package in node; and runs lintian. A part whose tool is
# missing is skipped. packages_hold.py checks the packages' contents, and clients/languages.sh tests the Go and Rust
# packages. Exits with 3 if dpkg-deb or Python is missing.
set -euo pipefail
top=$(cd "$(dirname "${BASH_SOURCE[0]}")/.." && pwd)
for tool in dpkg-deb python3; do
    command -v "$tool" >/dev/null || { echo "tests/packages.sh: $tool is missing; nothing was run" >&2; exit 3; }
done
work=$(mktemp -d)
trap 'rm -rf "$work"' EXIT
log=$top/examples/sign_in.log

fail() {
    echo "tests/packages.sh: $*"
    exit 1
}

# Checks that a program accepts the log with its command check: check_replay PROGRAM
check_replay() {
    "$1" check <"$log" >"$work/output" || fail "$1 does not replay $log"
    grep -q "^same " "$work/output" || fail "unexpected output of $1: $(cat "$work/output")"
}

# Start the second build more than a second later, so that the packages differ if they contain the current time.
"$top/packages/build.sh" "$work/first" >/dev/null &
sleep 1.1
"$top/packages/build.sh" "$work/second" >/dev/null
wait $! || fail "the first build failed"
diff -r "$work/first" "$work/second" >/dev/null || fail "two builds differ"
echo "tests/packages.sh: two builds are the same, byte for byte"

# Starts the cases of tests/program in the background, with the command of a package: run_cases NAME COMMAND [TEST ..]
waiting=()
run_cases() {
    python3 "$top/tests/program/cases.py" "${@:2}" >"$work/cases.$1" 2>&1 &
    waiting+=("$! $1")
}

# Checks that a program has the same bytes as release/hidlog, and accepts the log: check_program PROGRAM
check_program() {
    cmp "$1" "$top/release/hidlog" || fail "$1 differs from release/hidlog"
    check_replay "$1"
}

tar -C "$work" -xzf "$work"/first/hidlog-*-linux-x86_64.tar.gz
tarball=$(echo "$work"/hidlog-*)
check_program "$tarball/bin/hidlog"
run_cases tarball "$tarball/bin/hidlog"
# Unpacks Debian packages into ROOT, and makes the script /usr/bin/hidlog there use the program in ROOT: unpack_packages
# ROOT PACKAGE ..
unpack_packages() {
    local package
    for package in "${@:2}"; do
        dpkg-deb -x "$package" "$1"
    done
    sed -i "s|/usr/lib/|$1/usr/lib/|" "$1/usr/bin/hidlog"
}
unpack_packages "$work/plain" "$work"/first/hidlog_*_amd64.deb
check_program "$work/plain/usr/lib/hidlog/hidlog"
run_cases hidlog "$work/plain/usr/bin/hidlog"
mapfile -t debs < <(find "$work/first" -name '*.deb' ! -name '*_arm64.deb')
unpack_packages "$work/root" "${debs[@]}"
{
    echo '#!/bin/sh'
    echo "PYTHONDONTWRITEBYTECODE=1 PYTHONPATH=$work/root/usr/lib/python3/dist-packages exec $work/root/usr/bin/hidlog \"\$@\""
} >"$work/python3-hidlog"
chmod +x "$work/python3-hidlog"
run_cases python3-hidlog "$work/python3-hidlog"
if python3 -c 'import venv, ensurepip' 2>/dev/null; then
    python3 -m venv "$work/venv"
    "$work/venv/bin/pip" install --quiet --no-index --no-deps --disable-pip-version-check "$work"/first/*x86_64.whl
    run_cases wheel "$work/venv/bin/hidlog" test_cases_of_file test_log_outputs test_arguments_are_utf_8
fi
# Checks that bash completes the last of these words to EXPECTED: check_completion EXPECTED WORD ..
check_completion() {
    bash -c 'source "$1"; shift; want=$1; shift; COMP_WORDS=("$@"); COMP_CWORD=$(($# - 1)); _hidlog; [ "${COMPREPLY[*]}" = "$want" ]' \
        _ "$work/root/usr/share/bash-completion/completions/hidlog" "$@" || fail "bash does not complete ${*:2} to $1"
}
check_completion replay hidlog re
check_completion --save hidlog live --s
check_completion "$top/docs/use/hidlog.1" hidlog check --load "$top/docs/use/hidlog."
# libhidlog.so, a link in libhidlog-dev, must point to the file in libhidlog1.
[ -s "$work/root/usr/lib/x86_64-linux-gnu/libhidlog.so" ] || fail "libhidlog.so is a dangling link"
if command -v gcc >/dev/null; then
    if command -v pkg-config >/dev/null; then
        read -ra words < <(PKG_CONFIG_PATH=$tarball/lib/pkgconfig pkg-config --cflags --libs hidlog)
        gcc -o "$work/key" "$top/tests/c/key.c" "${words[@]}"
        LD_LIBRARY_PATH=$tarball/lib "$work/key" invalid-calls || fail "a program with the tarball's library fails"
    fi
    gcc -I "$work/root/usr/include" -o "$work/key" "$top/tests/c/key.c" -L "$work/root/usr/lib/x86_64-linux-gnu" -lhidlog
    LD_LIBRARY_PATH=$work/root/usr/lib/x86_64-linux-gnu "$work/key" invalid-calls || fail "a program with the library fails"
    echo "tests/packages.sh: a C program was built with the development package"
fi
# Prints what `show --summary` of a program prints for the log on a terminal with 40 columns: print_summary_at_terminal
# PROGRAM
print_summary_at_terminal() {
    COLUMNS=40 python3 -c 'import pty, sys; sys.exit(pty.spawn(sys.argv[1:]))' "$1" show --summary "$log" </dev/null
}

# Test the packages for arm64 with a cross compiler and qemu: build a C program with libhidlog-dev, which replays the
# log, and run the program hidlog.
if command -v aarch64-linux-gnu-gcc >/dev/null && command -v qemu-aarch64-static >/dev/null; then
    for package in "$work"/first/*_arm64.deb; do
        dpkg-deb -x "$package" "$work/arm64"
    done
    other=$work/arm64/usr/lib/aarch64-linux-gnu
    aarch64-linux-gnu-gcc -I "$work/arm64/usr/include" -o "$work/key_arm64" "$top/tests/c/key.c" -L "$other" -lhidlog
    qemu-aarch64-static -L /usr/aarch64-linux-gnu -E "LD_LIBRARY_PATH=$other" "$work/key_arm64" <"$log" | cmp - "$log" ||
        fail "a program with the library for arm64 fails"
    echo "tests/packages.sh: a C program with the packages for arm64 replays a session in qemu"
    if [ -e "$top/release/aarch64/hidlog" ]; then
        mkdir "$work/tarball_arm64"
        tar -C "$work/tarball_arm64" -xzf "$work"/first/hidlog-*-linux-aarch64.tar.gz
        for program in "$work/arm64/usr/lib/hidlog/hidlog" "$work"/tarball_arm64/hidlog-*/bin/hidlog; do
            cmp "$program" "$top/release/aarch64/hidlog" || fail "$program differs from release/aarch64/hidlog"
        done
        printf '#!/bin/sh\nexec qemu-aarch64-static -0 hidlog %s "$@"\n' "$top/release/aarch64/hidlog" >"$work/hidlog_arm64"
        chmod +x "$work/hidlog_arm64"
        run_cases arm64 "$work/hidlog_arm64"
        "$top/tests/worked_logs.sh" "$work/hidlog_arm64" >"$work/worked_arm64" || fail "$(tail -5 "$work/worked_arm64")"
        [ "$(print_summary_at_terminal "$work/hidlog_arm64")" = "$(print_summary_at_terminal "$top/release/hidlog")" ] ||
            fail "the program for arm64 ignores the terminal's width"
        echo "tests/packages.sh: the program for arm64 replays the worked logs in qemu"
    fi
fi
# Test the npm package: import it by its name in a module, with `require` and in TypeScript, and run its command.
if command -v node >/dev/null; then
    mkdir -p "$work/npm/node_modules/hidlog"
    tar -C "$work/npm/node_modules/hidlog" --strip-components=1 -xzf "$work"/first/hidlog-*.tgz
    echo 'import { SecurityKey } from "hidlog"; new SecurityKey();' >"$work/npm/key.mjs"
    echo 'const { SecurityKey } = require("hidlog"); new SecurityKey();' >"$work/npm/key.cjs"
    (cd "$work/npm" && node key.mjs && node key.cjs) || fail "node does not load the npm package"
    if command -v tsc >/dev/null; then
        cp "$work/npm/key.mjs" "$work/npm/key.mts"
        echo 'import { SecurityKey } from "hidlog"; const key: SecurityKey = new SecurityKey();' >"$work/npm/key.cts"
        (cd "$work/npm" && tsc --noEmit --strict --module node16 --moduleResolution node16 --lib es2022,dom key.mts key.cts) ||
            fail "the npm package's types are wrong"
        echo 'import { install } from "hidlog"; install({ delay: "soon" });' >"$work/npm/wrong.mts"
        (cd "$work/npm" && tsc --noEmit --module node16 --moduleResolution node16 --lib es2022,dom wrong.mts) >/dev/null &&
            fail "the npm package's types accept any argument"
    fi
    run_cases npm "$work/npm/node_modules/hidlog/cli.mjs" test_cases_of_file test_log_outputs
    HIDLOG_PROGRAM=$top/release/hidlog node "$top/tests/web/npm_package.mjs" "$work/npm" || fail "a test of the npm package's command or README fails"
    "$top/tests/clients/browser_cases.py" npm node "$top/tests/clients/cases/server.mjs" "$work/npm/node_modules/hidlog/node.mjs" ||
        fail "the results of the npm package differ"
    echo "tests/packages.sh: the npm package is loaded"
fi
# Check that the commands and the help texts of hidlog are the same in all packages.
commands=("$work/plain/usr/bin/hidlog" "$work/python3-hidlog")
[ ! -x "$work/venv/bin/hidlog" ] || commands+=("$work/venv/bin/hidlog")
[ ! -d "$work/npm" ] || commands+=("$work/npm/node_modules/hidlog/cli.mjs")
python3 "$top/tests/one_command.py" "${commands[@]}" || fail "the packages have different commands"
python3 "$top/tests/packages_hold.py" "$work/first"
"$top/tests/packages_signed.sh" "$work/first" || [ $? = 3 ] || fail "signing a release fails"
# Check how exposed the unit hidlog-uhid@ is: systemd-analyze gives it a score from 0 to 100, and fails above 19. As
# root and without a system call filter, the score would be 44.
if command -v systemd-analyze >/dev/null; then
    systemd-analyze security --no-pager --offline=yes --threshold=19 "$work/root/lib/systemd/system/hidlog-uhid@.service" \
        >"$work/output" || fail "the unit of hidlog-uhid is too exposed: $(tail -1 "$work/output")"
    echo "tests/packages.sh: $(tail -1 "$work/output")"
else
    echo "tests/packages.sh: systemd-analyze was not run (apt-get install systemd)"
fi
for run in "${waiting[@]}"; do
    wait "${run% *}" || fail "a test of the command of ${run#* } fails: $(cat "$work/cases.${run#* }")"
    echo "tests/packages.sh: the command of ${run#* }: $(tail -1 "$work/cases.${run#* }")"
done
if command -v lintian >/dev/null; then
    # Ignore two of lintian's tags: the packages are not part of Debian, so they close none of its bugs; and they are
    # built for Debian 12, where udev rules and units are in /lib, while Debian 13's lintian expects them in /usr/lib.
    tags=initial-upload-closes-no-bugs
    ! lintian-explain-tags aliased-location >/dev/null 2>&1 || tags+=,aliased-location
    lintian --fail-on error,warning --suppress-tags "$tags" "$work"/first/*.deb || fail "lintian found problems"
    echo "tests/packages.sh: lintian found no problems"
else
    echo "tests/packages.sh: lintian was not run (apt-get install lintian)"
fi
