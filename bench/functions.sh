#!/usr/bin/env bash
# Lists the functions of the library crates that a session calls, to see how many functions a reader has to follow.
# Builds the program crates/hello_key without inlining, and runs it under callgrind, which records only the calls in
# Session::step and OutboxIterator::next: those for a PING and a registration. Leaves out functions that `derive`
# generates, closures, and functions for proofs (in modules named `laws`). Then prints the number of functions, and the
# parameters that functions only pass on to other functions (pass_through_args.py). Needs rt and valgrind. hello_key is
# proved first, which takes a minute, or half an hour if the libraries have not been proved yet.
#
#     bench/functions.sh [DIR]        DIR is the directory for the intermediate files [default: a new one]
set -euo pipefail
top=$(cd "$(dirname "$0")/.." && pwd)
work=${1:-$(mktemp -d)}
mkdir -p "$work"
(cd "$top/crates/hello_key" && rt run --backend rattle --opt-level 0 >"$work/printed")
valgrind --tool=callgrind --callgrind-out-file="$work/profile" --collect-atstart=no \
    '--toggle-collect=token_session::session::Session::step*' \
    '--toggle-collect=hid_packet::outbox::OutboxIterator::next*' \
    "$top/crates/hello_key/out/hello_key" >"$work/printed" 2>"$work/counted"
libraries=$(cd "$top/crates" && printf '%s|' */src/lib.rt | sed 's,/src/lib.rt,,g; s,|$,,')
callgrind_annotate --threshold=100 --inclusive=yes "$work/profile" |
    sed -n 's/.*???:\([^[]*\) \[.*/\1/p' | sed "s/::<.*//; s/'2\$//; s/ *\$//" | sort -u |
    grep -E "^($libraries)::" | grep -vE '(Destruct|Debug|Default|PartialEq)[^:]*::|::(fn|laws)::' |
    tee "$work/functions"
wc -l <"$work/functions"
"$top/bench/pass_through_args.py" "$work/functions"
