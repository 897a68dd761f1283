#!/usr/bin/env bash
# Tests a build of the program hidlog with the worked logs, whose packets were worked out from the standard by hand, and
# with recorded logs. `replay` must write each log unchanged, and `check` must accept it; `replay` must also write the
# output of `live` unchanged. Then mutate_worked_logs.py changes packets of logs, and `check` must find each change.
#
#     tests/worked_logs.sh PROGRAM
set -euo pipefail
program=$(realpath "$1")
cd "$(dirname "${BASH_SOURCE[0]}")/.."
work=$(mktemp -d)
trap 'rm -rf "$work"' EXIT
count=0

# Tests the program with one log, and with these options, such as --load: check_log LOG OPTION ..
check_log() {
    local log=$1
    shift
    count=$((count + 1))
    "$program" replay "$@" <"$log" >"$work/replayed"
    cmp "$work/replayed" "$log"
    [[ $("$program" check "$@" <"$log") == "same "* ]] || { echo "$log differs"; exit 1; }
    "$program" live "$@" <"$log" >"$work/live"
    "$program" replay "$@" <"$work/live" >"$work/replayed"
    cmp "$work/replayed" "$work/live"
    "$program" show <"$log" >"$work/shown"
    ! grep -q "^>" "$log" || grep -q "INIT" "$work/shown" || { echo "$log: its packets are not shown"; exit 1; }
}

data=crates/hidlog_cli/data
for log in "$data"/capacity_64/*.log "$data"/recorded/*.log; do
    check_log "$log"
done
check_log "$data/restarted/after_restart.log" --load "$data/restarted/snapshot"
check_log examples/sign_in_again.log --load examples/example_com.snapshot
[ "$count" -ge 50 ] || { echo "expected at least 50 logs, found $count"; exit 1; }
echo "$count logs"
python3 tests/mutate_worked_logs.py "$program"
