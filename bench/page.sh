#!/usr/bin/env bash
# Measures the page bindings/web/index.html in each installed browser, with long logs: the time until it shows the first
# and the last row, the longest time for which it does not respond, the time that it takes to handle a keystroke in the
# search field, and its memory. Needs an otherwise idle machine. Fails if a limit of tests/web/long_tests.js is
# exceeded.
#
#     bench/page.sh [chromium | firefox]
#     sudo chrt -r 1 bench/page.sh chromium      on a busy machine: runs with priority over all other processes, for half
#                                                a minute
set -euo pipefail
top=$(cd "$(dirname "${BASH_SOURCE[0]}")/.." && pwd)
work=$(mktemp -d)
trap 'rm -rf "$work"' EXIT
failed=0

measure_browser() {
    echo "== $("$1" --version 2>/dev/null), load $(cut -d' ' -f1-3 /proc/loadavg)"
    "$top/tests/with_fido2.sh" "$top/tests/web/serve.py" "$work" 'long_tests&quiet=yes' "$@" || failed=1
}

[ "${1-chromium}" != chromium ] || measure_browser chromium --headless=new --no-sandbox --disable-dev-shm-usage \
    --enable-logging=stderr --user-data-dir=PROFILE
[ "${1-firefox}" != firefox ] || measure_browser firefox-esr --headless --no-remote --profile PROFILE
exit "$failed"
