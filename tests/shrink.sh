#!/usr/bin/env bash
# Tests `hidlog shrink`, which removes lines from a log as long as a command still fails on it. The cases are a log with
# a wrong digit in a response, where `hidlog check` must still report this packet; logs of 10,000 lines; --match; the
# sign-in of docs/use/TOUR.md; a command that prints findings to standard output; SIGINT; and invalid arguments.
set -euo pipefail
cd "$(dirname "${BASH_SOURCE[0]}")/.."
export PYTHONPATH=bindings/python/src
work=$(mktemp -d)
trap 'rm -rf "$work"' EXIT

fail() {
    echo "$*"
    exit 1
}

# Runs `hidlog shrink`, and writes the minimized log to $work/smaller: run_shrink ARGUMENT ..
run_shrink() {
    python3 -m hidlog shrink "$@" >"$work/smaller" 2>"$work/messages"
}

# Prints the number of inputs in the minimized log.
count_inputs() {
    grep -c '^[>tpks]' "$work/smaller" || true
}

# Writes an example log to $work/changed, with the 20th hexadecimal digit of a line replaced by f: write_changed_log
# LINE EXAMPLE
write_changed_log() {
    awk -v at="$1" 'NR == at { $2 = substr($2, 1, 19) "f" substr($2, 21) } { print }' "examples/$2" >"$work/changed"
    cmp -s "examples/$2" "$work/changed" && fail "examples/$2 has no line $1, or it has f at the 20th digit"
    return 0
}

# Checks that in the minimized log, `hidlog check` reports a difference at packet K after an input: expect_difference K
expect_difference() {
    if release/hidlog check <"$work/smaller" 2>"$work/fault" || ! grep -q "differs at packet $1\$" "$work/fault"; then
        fail "the minimized log must differ at packet $1: $(cat "$work/fault")"
    fi
}

# Case: the fourth packet after the signature of the first sign-in is changed.
write_changed_log "$(awk '/^s 320 /{ print NR + 4 }' examples/sign_in.log)" sign_in.log
run_shrink "$work/changed" release/hidlog check
expect_difference 4
release/hidlog show <"$work/smaller" 2>"$work/messages" | grep 'request 02 {1: "example.com"' >/dev/null
[ "$(wc -l <"$work/smaller")" -lt "$(wc -l <"$work/changed")" ]

# Case: logs of 10,000 lines, to which the log of the first case is added at the beginning or at the end.
{
    awk '!/^=/' "$work/changed"
    awk 'BEGIN { for (i = 0; i < 10000; i++) print i % 3 ? "t 2000" : "# a comment" }'
} >"$work/long"
{
    awk 'BEGIN { for (i = 0; i < 10000; i++) print i % 3 ? "t 0" : "# a comment" }'
    awk '!/^=/' "$work/changed"
} >"$work/longer"
for log in long longer; do
    : >"$work/runs"
    python3 -m hidlog shrink "$work/$log" sh -c "echo >>'$work/runs'; release/hidlog check" >"$work/smaller" \
        2>"$work/messages" || fail "10,000 lines: $(cat "$work/messages")"
    [ "$(wc -l <"$work/runs")" -lt 200 ] || fail "10,000 lines took $(wc -l <"$work/runs") runs"
    expect_difference 4
    [ "$(wc -l <"$work/smaller")" -lt 40 ] || fail "$(wc -l <"$work/smaller") lines are left"
done

# Case: the response to a getInfo after a registration is changed. Only INIT and getInfo must remain.
begins=$(release/hidlog show --json examples/service_sign_in.log |
    awk -F '[:,]' '/"from":"key"/ && /"name":"CBOR"/ { begins = $2 } /"kind":"answer"/ && /GetInfo/ { last = begins }
        END { print last }')
write_changed_log "$begins" service_sign_in.log
run_shrink "$work/changed" release/hidlog check
expect_difference 1
[ "$(count_inputs)" = 2 ] || fail "$(count_inputs) inputs remain of a getInfo: $(cat "$work/smaller")"

# Case: --match, with a command that fails and prints the text if the key sends a KEEPALIVE that asks for user presence.
# Such a KEEPALIVE must remain.
# shellcheck disable=SC2016  # the shell that is called expands it
asks='release/hidlog replay | if grep -q "^< [0-9a-f]*bb000102"; then echo "asks for presence"; exit 1; fi'
run_shrink --match "asks for presence" examples/sign_in.log sh -c "$asks"
if sh -c "$asks" <"$work/smaller" >"$work/fault"; then
    fail "the minimized log requests no user presence"
fi
[ "$(count_inputs)" -lt 6 ] || fail "$(cat "$work/smaller")"

# Case: the log of docs/use/TOUR.md, in which a sign-in is denied. This sign-in and the registration before it must
# remain: eight inputs, which are INIT, five inputs of the registration (two packets, presence, key pair, signature),
# the sign-in's packet and the denial.
sed '22s/granted/denied/' examples/sign_in.log | release/hidlog replay >"$work/right"
denied="! release/hidlog replay | release/hidlog show --summary | grep 'GetAssertion .*OPERATION_DENIED' >/dev/null"
run_shrink "$work/right" sh -c "$denied"
sh -c "$denied" <"$work/smaller" && fail "the minimized log has no denied sign-in"
[ "$(count_inputs)" = 8 ] || fail "$(count_inputs) inputs remain of TOUR.md's log: $(cat "$work/smaller")"
[ "$(grep -c '^p .* denied$' "$work/smaller")" = 1 ] || fail "the minimized log must have one denial"

# Case: `hidlog judge` prints a finding to standard output: a signature counter that does not increase. Two sign-ins
# must remain.
run_shrink examples/failing/stale_sign_count.log python3 -m hidlog judge
python3 -m hidlog judge "$work/smaller" >"$work/found" && fail "judge has no finding in the minimized log"
grep -q 'expected: a signature counter above 1' "$work/found" || fail "$(cat "$work/found")"
[ "$(grep -c '^s ' "$work/smaller")" = 2 ] || fail "$(grep -c '^s ' "$work/smaller") signatures are left"
# Case: the command prints its finding after another line, as `check --signatures` does.
finds="awk '{ print \"seen\" } / (granted|denied)\$/ { print \"line \" NR \": \" \$3; found = 1 } END { exit found }'"
run_shrink "$work/right" sh -c "$finds"
[ "$(count_inputs) $(head -n 1 "$work/smaller")" = "1 p 200 granted" ] || fail "expected only the first line: $(cat "$work/smaller")"

# Case: SIGINT. `hidlog shrink` must write the shortest log on which the command has failed so far. The command sends
# SIGINT in the run after the first one that failed on a shorter log.
cat >"$work/stops" <<'STOPS'
cat >"$0.log"
[ ! -e "$0.shorter" ] || kill -INT "$PPID"
status=0
release/hidlog check <"$0.log" || status=$?
[ "$status" != 1 ] || [ "$(wc -l <"$0.log")" -ge "$1" ] || : >"$0.shorter"
exit "$status"
STOPS
write_changed_log "$(awk '/^s 320 /{ print NR + 4 }' examples/sign_in.log)" sign_in.log
status=0
python3 -m hidlog shrink "$work/changed" sh "$work/stops" "$(wc -l <"$work/changed")" >"$work/smaller" 2>"$work/messages" ||
    status=$?
[ "$status" = 130 ] || fail "SIGINT: expected status 130, got $status"
grep -q '^hidlog shrink: interrupted$' "$work/messages" || fail "SIGINT: $(cat "$work/messages")"
expect_difference 4
[ "$(wc -l <"$work/smaller")" -lt "$(wc -l <"$work/changed")" ] || fail "SIGINT: the log was not minimized"

# Checks that `hidlog shrink` rejects invalid arguments: with exit status 2, a message and no output: expect_usage_error
# MESSAGE ARGUMENT ..
expect_usage_error() {
    local text=$1 status=0
    shift
    run_shrink "$@" </dev/null || status=$?
    [ "$status" = 2 ] || fail "expected status 2, got $status: $*"
    [ ! -s "$work/smaller" ] || fail "a log was written: $*"
    grep -qF -- "$text" "$work/messages" || fail "$*: $(cat "$work/messages")"
}
expect_usage_error "the command does not fail on the whole log" examples/sign_in.log release/hidlog check
expect_usage_error "the command does not both fail and print 'never said' on the whole log" --match "never said" examples/sign_in.log \
    sh -c "$asks"
expect_usage_error "the command is missing after the log" examples/sign_in.log
expect_usage_error "nothing.log: No such file or directory" nothing.log release/hidlog check
expect_usage_error "no_such_program cannot be started: No such file" examples/sign_in.log no_such_program
expect_usage_error "the log must come before the command" release/hidlog check examples/sign_in.log
expect_usage_error "the command also fails on an empty log, with 'hidlog: cannot read log'" examples/sign_in.log \
    release/hidlog check nothing.log
expect_usage_error "the following arguments are required: LOG"
