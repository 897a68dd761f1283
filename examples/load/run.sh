#!/usr/bin/env bash
# Load-tests the example service service.py with Locust: examples/load/run.sh [SECONDS [USERS [WORKERS]]]
#
# Runs the service, Locust's master process and its WORKERS worker processes [default: 2] on this machine, with the
# Python package of this clone. Locust runs twice for SECONDS [default: 10] with USERS simulated users [default: 20]; in
# the second run, the users of the first run sign in again. If a busy machine needs more time, a run is repeated with
# twice the time. Exits with 1 if a registration or a sign-in fails, and with 3 if a Debian package is missing.
#
# The service stores its users in SQLite, or in PostgreSQL if PGHOST is set. `pg_virtualenv examples/load/run.sh` (of
# postgresql-common) creates a temporary database and sets PGHOST. HIDLOG_PROCESSES is the number of the service's
# processes [default: 1]. If HIDLOG_KILL is set, a worker is killed during the first run.
set -euo pipefail
here=$(cd "$(dirname "${BASH_SOURCE[0]}")" && pwd)
seconds=${1:-10}
users=${2:-20}
workers=${3:-2}
python=/usr/bin/python3
"$python" -c 'import flask, fido2, locust' 2>/dev/null ||
    { echo "examples/load/run.sh: the Python package locust, flask or fido2 is missing (apt-get install python3-locust python3-flask python3-fido2)" >&2 && exit 3; }
work=$(mktemp -d)
started=()
# Waits up to two minutes until processes have ended, and then kills those that have not, since a suspended process does
# not end by itself: wait_for_processes PID ..
wait_for_processes() {
    local tenths
    for ((tenths = 0; tenths < 1200; tenths++)); do
        kill -0 "$@" 2>/dev/null || return 0
        sleep 0.1
    done
    kill -KILL "$@" 2>/dev/null || true
}
stop_processes() {
    if [ ${#started[@]} -gt 0 ]; then
        kill "${started[@]}" 2>/dev/null || true
        wait_for_processes "${started[@]}"
    fi
    wait
    rm -rf "$work"
}
trap stop_processes EXIT
export PYTHONPATH=$here/../../bindings/python/src PYTHONDONTWRITEBYTECODE=1
# Prints a free port. It is below the range from which the system takes ports for outgoing connections.
find_free_port() {
    "$python" -c '
import random, socket
while True:
    port = random.randrange(20000, 32768)
    try:
        with socket.socket() as listener:
            listener.bind(("", port))
    except OSError:
        continue
    print(port)
    break'
}
port=$(find_free_port)
database=$work/service.db
[ -z "${PGHOST-}" ] || database=postgresql:
"$python" "$here/service.py" --port "$port" --database "$database" --processes "${HIDLOG_PROCESSES:-1}" &
service=$!
started+=("$service")
until "$python" -c "import socket; socket.create_connection(('127.0.0.1', $port))" 2>/dev/null; do
    kill -0 "$service" || { echo "FAILED  service.py ended before it accepted connections on port $port" >&2 && exit 1; }
    sleep 0.1
done

# Runs Locust once, and then measure.py with these arguments, which prints and checks the results: run_locust NAME USERS
# [BEFORE] AFTER. NAME is the run's name. BEFORE and AFTER are files with the users' security keys before and after the
# run.
run_locust() {
    local words=("$python" -W ignore -m locust -f "$here/locustfile.py" --loglevel WARNING --security-keys "$work/keys.db"
        --failed-logs "$work/failed") each ran=() master
    master=$(find_free_port)
    for ((each = 0; each < workers; each++)); do
        "${words[@]}" --worker --master-port "$master" >"$work/worker$each" 2>&1 &
        ran+=($!)
    done
    started+=("${ran[@]}")
    if [ -n "${HIDLOG_KILL-}" ] && [ "$1" = one ]; then
        (sleep $((seconds / 2 + 5)) && kill -KILL "${ran[0]}") &
    fi
    "${words[@]}" --master --master-bind-port "$master" --headless --expect-workers "$workers" --host "http://localhost:$port" \
        --users "$users" --spawn-rate "$users" --run-time "${seconds}s" --only-summary --csv "$work/$1" >"$work/output" 2>&1 ||
        { [ -n "${HIDLOG_KILL-}" ] || { cat "$work/output" "$work"/worker* && return 1; }; }
    # The workers exit by themselves when their master has exited.
    wait_for_processes "${ran[@]}"
    wait "${ran[@]}" 2>/dev/null || true
    echo "$1: the service has used $(ps -o cputimes= -p "$service" --ppid "$service" | awk '{ sum += $1 } END { print sum }') s of processor time so far"
    "$python" "$here/measure.py" "$1" "$work/$1_stats.csv" "${@:2}"
}

# Runs Locust, and if measure.py exits with 4, since the run was too short, runs it again with twice the time, up to 8
# times in total: run_locust_until_long_enough NAME USERS [BEFORE] AFTER
run_locust_until_long_enough() {
    local status seconds=$seconds tries
    for tries in 1 2 3 4 5 6 7 8; do
        status=0
        run_locust "$@" || status=$?
        [ "$status" = 4 ] || return "$status"
        echo "$1: run $tries, of $seconds s, was too short"
        seconds=$((seconds * 2))
    done
    return 1
}

run_locust_until_long_enough one "$users" "$work/keys.db"
"$python" -c 'import sqlite3, sys; sqlite3.connect(sys.argv[1]).execute("vacuum into ?", sys.argv[2:])' "$work/keys.db" "$work/before.db"
run_locust_until_long_enough two "$users" "$work/before.db" "$work/keys.db"
