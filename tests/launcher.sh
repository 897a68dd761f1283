#!/usr/bin/env bash
# Tests ./hidlog, the script that runs the verified program in a clone: in a copy of the repository, with only a few
# programs of the base system on PATH.
set -euo pipefail
top=$(cd "$(dirname "${BASH_SOURCE[0]}")/.." && pwd)
work=$(mktemp -d)
trap 'PATH=${every_path:-$PATH} rm -rf "$work"' EXIT
log=$top/examples/registration.log
# A path with a space.
copy="$work/a copy"
mkdir -p "$copy/crates" "$work/bin"
cp -a "$top"/{hidlog,crates.txt,HANDLES,release,packages,bindings} "$copy/"
(cd "$top" && packages/release_sources.sh | grep ^crates/ | xargs cp -a --parents -t "$copy")
# Give all files the same modification time, as in a new clone, so that release/BUILD is not older than the sources.
find "$copy" -exec touch -h -d 2010-01-01 {} +
touch -d 2010-01-01 "$copy/release/BUILD"
every_path=$PATH
for name in sh awk cat cut dirname find grep readlink sed sha256sum sort uname xargs; do
    ln -s "$(command -v "$name")" "$work/bin/$name"
done
export PATH=$work/bin
# A toolchain that records its call: the launcher must not run the toolchain, even if it is installed.
printf '#!/bin/sh\n: >"%s"\n' "$work/proved" >"$work/bin/rt"
"$(PATH=$every_path command -v chmod)" +x "$work/bin/rt"

fail() {
    echo "FAILED: $*"
    exit 1
}

# Runs a command that must exit with STATUS, with the log on its standard input. Writes its output to $work/out, and its
# messages to $work/messages: expect_status STATUS COMMAND ARGUMENT ..
expect_status() {
    local wanted=$1 status=0
    shift
    "$@" <"$log" >"$work/out" 2>"$work/messages" || status=$?
    [ "$status" = "$wanted" ] || fail "$*: exit status $status, expected $wanted: $(<"$work/messages")"
}

# Checks that a command replays the log, and prints no message: check_replay COMMAND ..
check_replay() {
    expect_status 0 "$@" replay
    [ "$(<"$work/out")" = "$(<"$log")" ] || fail "$* does not replay"
    [ ! -s "$work/messages" ] || fail "$* printed: $(<"$work/messages")"
}

# Checks that ./hidlog replays the log, but also prints that the program is older than the sources and must be built
# again. CHANGE is what has changed in the sources: check_stale_message CHANGE
check_stale_message() {
    expect_status 0 "$copy/hidlog" replay
    [ "$(<"$work/out")" = "$(<"$log")" ] || fail "$1: it does not replay"
    [[ $(<"$work/messages") =~ ^hidlog:\ [^$'\n']*older[^$'\n']*"rt ci && packages/build_release.sh"$ ]] ||
        fail "$1: $(<"$work/messages")"
}

check_replay "$copy/hidlog"
"$(PATH=$every_path command -v ln)" -s "$copy/hidlog" "$work/link"
check_replay "$work/link"
(cd "$work" && check_replay "./a copy/hidlog")
(cd "$copy" && check_replay ./hidlog && check_replay sh hidlog)
expect_status 2 "$copy/hidlog" frobnicate

# Check that the launcher detects a changed source, definition or proof, even if its modification time is old, and a new
# file.
PATH=$every_path
changed=("$copy/crates/session_log/src/lib.rt")
for kind in specs proofs; do
    changed+=("$(find "$copy/crates/session_log/$kind" -name '*.antt' | sort | sed -n 1p)")
done
for file in "${changed[@]}"; do
    cp -p "$file" "$work/kept"
    echo '-- changed' >>"$file"
    touch -d 2001-01-01 "$file"
    PATH=$work/bin check_stale_message "$file"
    cp -p "$work/kept" "$file"
    PATH=$work/bin check_replay "$copy/hidlog"
done
: >"$copy/crates/session_log/src/new.rt"
PATH=$work/bin check_stale_message "a new file"
rm "$copy/crates/session_log/src/new.rt"
[ ! -e "$work/proved" ] || fail "the launcher started a proof"

# Check that commands of the Python package run the clone's modules, not modules in the current folder, and that a
# message is printed without Python.
if command -v python3 >/dev/null; then
    ln -s "$(python3 -c 'import sys; print(sys.executable)')" "$work/bin/python3"
    mkdir -p "$work/here/hidlog"
    echo 'print("a module of the current folder")' | tee "$work/here/hidlog/__init__.py" >"$work/here/json.py"
    (cd "$work/here" && PATH=.:$work/bin PYTHONDONTWRITEBYTECODE=1 "$copy/hidlog" mermaid "$log" >"$work/out")
    [ "$(sed -n 1p "$work/out")" = sequenceDiagram ] || fail "hidlog mermaid: $(cat "$work/out")"
    rm "$work/bin/python3"
fi
PATH=$work/bin expect_status 2 "$copy/hidlog" mermaid
grep -q "^hidlog: mermaid .* python3 is missing" "$work/messages" || fail "without Python: $(cat "$work/messages")"
echo "tests/launcher.sh: all passed"
