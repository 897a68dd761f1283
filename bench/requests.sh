#!/usr/bin/env bash
# Counts, with callgrind, the instructions of `ctap_message::read_request` for a request, and those of
# `ctap_cbor::check` for the request's CBOR. The requests are a makeCredential of 91 bytes, a getAssertion of 50 bytes,
# and a getAssertion with an allowList of 64 descriptors. The goal is that `read_request`, which calls `check` and then
# parses the request, takes at most three times the instructions of `check`. Needs rt, valgrind and Python 3.
#
# Each count is the difference between a run of 250 rounds and a run without rounds, so startup is excluded. The program
# is built in a separate directory, with copies of the crates.
set -eu
here=$(cd "$(dirname "$0")" && pwd)
work=${1:-$(mktemp -d)}
mkdir -p "$work/crates/requests_bench/src"
cp "$here/../HANDLES" "$work/"
for crate in ctap_cbor ctap_message; do
    rm -rf "$work/crates/$crate"
    cp -r "$here/../crates/$crate" "$work/crates/"
done
printf '%s\n' 'ctap_cbor: byteorder thiserror' 'ctap_message: ctap_cbor arrayvec' \
    'requests_bench: ctap_cbor ctap_message' > "$work/crates.txt"
cat > "$work/crates/requests_bench/src/main.rt" <<'PROGRAM'
//! The first byte of standard input is the number of rounds, the second is 0 for `read_request` and not 0 for `check`,
//! and the rest is the message. Prints the total number of steps.
#![tactic(auto)]

use ctap_cbor::check;
use ctap_message::read_request;
use std::io;
use std::io::Read;

fn steps_of(is_check: bool, message: &[u8]) -> u64 {
    if is_check {
        match message.split_first() {
            Some((_, parameters)) => check(parameters).steps,
            None => 0,
        }
    } else {
        let (_, steps) = read_request(message);
        steps
    }
}

fn main(rt: HostRuntime) -> io::Result<()> {
    let mut bytes = Vec::new(rt.alloc());
    rt.stdin().read_to_end(&mut bytes)?;
    let mut steps: u64 = 0;
    if bytes.len() > 2 {
        for _ in 0..bytes[0] {
            steps = steps.saturating_add(steps_of(bytes[1] != 0, &bytes[2..]));
        }
    }
    println!(rt; "{steps}")
}
PROGRAM
python3 - "$work" <<'MESSAGES'
import sys


def text(s):
    return bytes([0x60 + len(s)]) + s


def descriptor(n):
    return b"\xa2" + text(b"id") + b"\x58\x20" + bytes([n]) * 32 + text(b"type") + text(b"public-key")


credential = b"\xa2" + text(b"alg") + b"\x26" + text(b"type") + text(b"public-key")
make = (
    b"\x01\xa5\x01\x58\x20" + b"\x11" * 32 + b"\x02\xa1" + text(b"id") + text(b"example.com")
    + b"\x03\xa1" + text(b"id") + b"\x41\x01\x04\x81" + credential + b"\x07\xa1" + text(b"rk") + b"\xf5"
)
asked = b"\x01" + text(b"example.com") + b"\x02\x58\x20" + b"\x22" * 32
messages = {
    "makeCredential": make,
    "getAssertion": b"\x02\xa2" + asked,
    "64 descriptors": b"\x02\xa3" + asked + b"\x03\x98\x40" + b"".join(descriptor(n) for n in range(64)),
}
for name, message in messages.items():
    for way in (0, 1):
        for rounds in (0, 250):
            with open(f"{sys.argv[1]}/{name}.{way}.{rounds}", "wb") as file:
                file.write(bytes([rounds, way]) + message)
MESSAGES
cd "$work/crates/requests_bench"
rt run < "$work/makeCredential.0.0" > "$work/answer"
program=$(find out -maxdepth 3 -type f -executable -name 'requests_bench*' | head -n 1)
count_instructions() {
    valgrind --tool=callgrind --callgrind-out-file="$work/callgrind" "$program" < "$1" 2>&1 > "$work/answer" |
        sed -n 's/.*Collected : //p'
}
for name in makeCredential getAssertion "64 descriptors"; do
    read=$((($(count_instructions "$work/$name.0.250") - $(count_instructions "$work/$name.0.0")) / 250))
    check=$((($(count_instructions "$work/$name.1.250") - $(count_instructions "$work/$name.1.0")) / 250))
    steps=$(($("$program" < "$work/$name.0.250") / 250))
    echo "$name: $read instructions to read in $steps steps, $check to check, $((100 * read / check)) %"
done
