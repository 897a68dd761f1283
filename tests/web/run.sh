#!/usr/bin/env bash
# Runs the tests of bindings/web/ in each installed browser: tests of the page that shows logs, and of the key in a web
# page, whose recordings must pass `hidlog check`. Prints which optional dependencies are missing. Exits with 3 if
# python-fido2 or both browsers are missing.
#
#     tests/web/run.sh [chromium | firefox]        [default: both browsers]
#
# HIDLOG_PROGRAM is the path of the program hidlog [default: ./hidlog].
set -euo pipefail
top=$(cd "$(dirname "${BASH_SOURCE[0]}")/../.." && pwd)
here=$top/tests/web
program=${HIDLOG_PROGRAM:-$top/hidlog}
with_fido2=$top/tests/with_fido2.sh
"$with_fido2" -c '' || exit 3
work=$(mktemp -d)
trap 'rm -rf "$work"' EXIT
modules=viewer_tests,views_tests,input_tests,mistakes_tests,transactions_tests,key_tests,long_tests
failed=0
ran=0

run_browser_tests() {
    local browser=$1
    shift
    echo "== $("$1" --version 2>/dev/null)"
    ran=1
    mkdir -p "$work/$browser"
    "$with_fido2" "$here/serve.py" "$work/$browser" "$modules" "$@" || failed=1
    if [ "$browser" = chromium ]; then
        "$with_fido2" "$here/from_file.py" || [ $? = 3 ] || failed=1
        "$with_fido2" "$here/diagnoses.py" || [ $? = 3 ] || failed=1
        "$with_fido2" "$here/layout.py" || [ $? = 3 ] || failed=1
        "$with_fido2" "$here/states.py" || [ $? = 3 ] || failed=1
        "$with_fido2" "$here/virtual_authenticator.py" || [ $? = 3 ] || failed=1
        "$with_fido2" "$here/storage.py" || [ $? = 3 ] || failed=1
        "$here/walks_fuzzed.py" --program "$program" || [ $? = 3 ] || failed=1
        run_examples_and_node_tests
    fi
    check_recordings "$work/$browser"
}

# Runs the examples in examples/web: those in Python with Debian's Selenium, and those in JavaScript, with the tests in
# this folder, with node.
run_examples_and_node_tests() {
    local example
    if /usr/bin/python3 -c 'import selenium' 2>/dev/null && command -v chromedriver >/dev/null; then
        for example in "$top"/examples/web/*.py; do
            "$example" || failed=1
        done
    else
        echo "tests/web: selenium or chromedriver is missing; the examples are not run (apt-get install python3-selenium chromium-driver)" >&2
    fi
    if command -v node >/dev/null; then
        if node --test "$top/examples/web/" "$here" >"$work/output"; then
            echo "ok  the key in node, and the example: $(grep '^# pass' "$work/output")"
        else
            cat "$work/output"
            failed=1
        fi
    else
        echo "tests/web: node is missing; the tests with node are not run (apt-get install nodejs)" >&2
    fi
}

# Checks that `hidlog check` accepts each recording in a folder: check_recordings FOLDER
check_recordings() {
    local log snapshot
    for log in "$1"/*.log; do
        [ -e "$log" ] || continue
        snapshot=()
        [ ! -e "$log.snapshot" ] || snapshot=(--load "$log.snapshot")
        if "$program" check "${snapshot[@]}" <"$log" >"$work/output" 2>&1; then
            echo "ok  hidlog check ${log##*/}: $(cat "$work/output")"
        else
            echo "FAILED  hidlog check ${log##*/}: $(cat "$work/output")"
            failed=1
        fi
    done
}

"$top/bindings/web/build.sh" --check || [ $? = 3 ] || failed=1
if command -v tsc >/dev/null; then
    for project in "$top"/bindings/web/tsconfig{,.viewer}.json; do
        tsc -p "$project" && echo "ok  types of ${project#"$top"/}" || failed=1
    done
    for checked in types.mts=es2022,dom types_in_node.mts=es2022; do
        tsc --strict --noEmit --target es2022 --lib "${checked#*=}" --module node16 --moduleResolution node16 \
            --typeRoots "$work/none" "$here/${checked%=*}" && echo "ok  types of ${checked%=*}" || failed=1
    done
else
    echo "tests/web: tsc is missing; the types are not checked (apt-get install node-typescript)" >&2
fi
wanted=${1:-all}
if [ "$wanted" != firefox ]; then
    if command -v chromium >/dev/null; then
        run_browser_tests chromium chromium --headless=new --no-sandbox --disable-dev-shm-usage --enable-logging=stderr \
            --user-data-dir=PROFILE
    else
        echo "tests/web: chromium is missing; its tests are not run (apt-get install chromium)" >&2
    fi
fi
if [ "$wanted" != chromium ]; then
    if command -v firefox-esr >/dev/null; then
        run_browser_tests firefox firefox-esr --headless --no-remote --profile PROFILE
    else
        echo "tests/web: firefox-esr is missing; its tests are not run (apt-get install firefox-esr)" >&2
    fi
fi
if [ "$ran" = 0 ]; then
    exit 3
fi
exit "$failed"
