#!/usr/bin/env bash
# Counts, with callgrind, the instructions that `ctap_cbor::check` takes for a message: the mean over 1,000 different
# makeCredential and getAssertion requests of about 450 bytes. Needs rt, valgrind and Python 3.
#
#     bench/cbor.sh [DIR]        DIR is the directory for the program and a copy of the crate [default: a new one]
#
# The program that calls `check` is run twice, with ten rounds over all messages and without rounds. The difference
# excludes the program's startup and the reading of the messages.
set -eu
here=$(cd "$(dirname "$0")" && pwd)
work=${1:-$(mktemp -d)}
mkdir -p "$work/crates/cbor_bench/src"
cp "$here/../HANDLES" "$work/"
rm -rf "$work/crates/ctap_cbor"
cp -r "$here/../crates/ctap_cbor" "$work/crates/"
printf 'ctap_cbor: byteorder thiserror\ncbor_bench: ctap_cbor\n' > "$work/crates.txt"
cat > "$work/crates/cbor_bench/src/main.rt" <<'PROGRAM'
//! Checks the messages on standard input, after a first byte with the number of rounds, and prints how many are
//! canonical in all rounds.
#![tactic(auto)]

use ctap_cbor::check;
use std::io;
use std::io::Read;

fn canonical(mut rest: &[u8]) -> u64 {
    let mut count: u64 = 0;
    for _ in 0..u64::MAX {
        if rest.len() < 2 {
            break;
        }
        let len = rest[0] as usize + 256 * rest[1] as usize;
        let beyond = rest.split_at(2).1;
        if beyond.len() < len {
            break;
        }
        let (message, next) = beyond.split_at(len);
        if check(message).result.is_ok() {
            count = count.saturating_add(1);
        }
        rest = next;
    }
    count
}

fn main(rt: HostRuntime) -> io::Result<()> {
    let mut bytes = Vec::new(rt.alloc());
    rt.stdin().read_to_end(&mut bytes)?;
    let mut count: u64 = 0;
    if let Some((rounds, messages)) = bytes.split_first() {
        for _ in 0..*rounds {
            count = count.saturating_add(canonical(messages));
        }
    }
    println!(rt; "{count}")
}
PROGRAM
python3 "$here/cbor_messages.py" 0 > "$work/none"
python3 "$here/cbor_messages.py" 10 > "$work/ten"
cd "$work/crates/cbor_bench"
rt run < "$work/ten" > "$work/answer"
echo "canonical in ten rounds: $(tail -n 1 "$work/answer")"
program=$(find out -maxdepth 3 -type f -executable -name 'cbor_bench*' | head -n 1)
count_instructions() {
    valgrind --tool=callgrind --callgrind-out-file="$work/callgrind.$1" "$program" < "$work/$1" 2>&1 > "$work/answer" |
        sed -n 's/.*Collected : //p'
}
none=$(count_instructions none)
ten=$(count_instructions ten)
echo "instructions for each check: $(((ten - none) / 10000))"
