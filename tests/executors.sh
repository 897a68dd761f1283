#!/usr/bin/env bash
# Tests the option --executor of the fuzzers and of the conformance tests: runs them on a local Dask cluster and with
# local processes, and expects equal results. Kills one of the cluster's workers during the runs. Exits with 3 if
# Debian's python3-distributed is missing.
set -euo pipefail
top=$(cd "$(dirname "${BASH_SOURCE[0]}")/.." && pwd)
python=/usr/bin/python3
"$python" -c 'import distributed, cryptography' 2>/dev/null ||
    { echo "tests/executors.sh: the Python package distributed or cryptography is missing (apt-get install python3-distributed python3-cryptography)" >&2 && exit 3; }
work=$(mktemp -d)
started=()
# Ends the scheduler and the workers with SIGKILL: after SIGTERM they may wait for each other forever. They have no
# state to save.
stop_cluster() {
    kill -KILL "${started[@]}" 2>/dev/null || true
    wait 2>/dev/null || true # the shell reports the kills
    rm -rf "$work"
}
trap stop_cluster EXIT
cd "$work" # workers write temporary files here
# The scheduler needs this PYTHONPATH, too, since newer versions of it deserialize the tasks.
PYTHONPATH=$top/conformance:$top/tests/fuzz "$python" -m distributed.cli.dask_scheduler --host 127.0.0.1 --port 0 --no-dashboard \
    --scheduler-file "$work/scheduler.json" >"$work/scheduler" 2>&1 &
started+=($!)
until [ -s "$work/scheduler.json" ]; do
    kill -0 "${started[0]}" || { cat "$work/scheduler" >&2 && exit 1; }
    sleep 0.1
done
for _ in 1 2 3; do
    "$python" -m distributed.cli.dask_worker --scheduler-file "$work/scheduler.json" --host 127.0.0.1 --nthreads 1 \
        --no-dashboard --no-nanny >>"$work/workers" 2>&1 &
    started+=($!)
done
address=$(sed -n 's|.*"address": "tcp://\(127[^"]*\)".*|\1|p' "$work/scheduler.json" | sed -n 1p)
executor=dask://$address
failed=0

# Runs a command with local processes and on the Dask workers, and compares the lines of its output that match a
# pattern: compare_results TITLE PATTERN COMMAND ..
compare_results() {
    "${@:3}" 2>/dev/null | grep -E "$2" | sed 's/; [0-9]* s$//' >"$work/here" || true
    "${@:3}" --executor "$executor" 2>"$work/faults" | grep -E "$2" | sed 's/; [0-9]* s$//' >"$work/there" || true
    if [ -s "$work/here" ] && cmp -s "$work/here" "$work/there"; then
        echo "ok  $1: $(tail -1 "$work/here")"
    else
        echo "FAILED  $1: $(cat "$work/here") in local processes; on the workers $(cat "$work/there" "$work/faults")"
        failed=1
    fi
}

(sleep 2 && kill -KILL "${started[1]}") &
compare_results "hostile logs" "logs,|findings" "$python" "$top/tests/fuzz/fuzz.py" --program "$top/release/hidlog" --count 200
compare_results "transactions" "logs," "$python" "$top/tests/fuzz/transactions.py" --count 60
compare_results "a part of the corpus" "passed," "$python" "$top/conformance/run.py" --only init/ --touch-line touch \
    --device "$python $top/conformance/as_command.py"
if "$python" "$top/conformance/run.py" --executor tcp://localhost:1 --touch-line touch --device x 2>"$work/faults" ||
    ! grep -q "it must be dask://HOST:PORT" "$work/faults"; then
    echo "FAILED  an invalid address: $(cat "$work/faults")"
    failed=1
fi
exit "$failed"
