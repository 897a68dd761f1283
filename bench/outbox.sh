#!/usr/bin/env bash
# Counts, with callgrind, the instructions that hid_packet's Outbox takes to put a message of maximum length and to pop
# its 129 packets, and the same for a message of one byte. Needs rt and valgrind.
#
#     bench/outbox.sh [DIR]        DIR has the crates to measure, such as a clone at an earlier commit [default: this
#                                  clone]
#
# Each count is the difference between a run of 200 rounds and a run without rounds, divided by 200.
set -eu
here=$(cd "$(dirname "$0")/.." && pwd)
from=${1:-$here}
work=$(mktemp -d)
mkdir -p "$work/crates/outbox_bench/src"
cp "$here/HANDLES" "$work/"
cp -r "$from/crates/hid_packet" "$work/crates/"
grep '^hid_packet:' "$from/crates.txt" > "$work/crates.txt"
echo 'outbox_bench: hid_packet' >> "$work/crates.txt"
cat > "$work/crates/outbox_bench/src/main.rt" <<'PROGRAM'
//! Puts messages and takes their packets. Standard input has two bytes: the number of rounds, and 0 for messages of
//! maximum length or another value for messages of one byte.
#![tactic(auto)]

use hid_packet::laws::written_packets_are_the_fewest;
use hid_packet::{Outbox, Packet};
use std::io;
use std::io::Read;

/// Puts a message and takes its packets. Returns a byte of the last packet, at an index that the compiler does not
/// know, so that it builds each whole packet.
fn round(outbox: &mut Outbox, bytes: &[u8], place: usize) -> u8 {
    written_packets_are_the_fewest();
    if !outbox.is_empty() || bytes.len() > 7609 {
        return 1;
    }
    outbox.put_message(1, 1, bytes);
    let mut last = Packet([0; 64]);
    for _ in 0..130 {
        let Some(packet) = outbox.pop() else {
            break;
        };
        last = packet;
    }
    last.0[place % 64]
}

fn main(rt: HostRuntime) -> io::Result<()> {
    let mut words = [0; 2];
    rt.stdin().read_exact(&mut words)?;
    let bytes = [9; 7609];
    let len = if words[1] == 0 { 7609 } else { 1 };
    let mut outbox = Outbox::new();
    let mut sum: u8 = 0;
    let place = usize::from(words[1]);
    for _ in 0..words[0] {
        sum = sum.wrapping_add(round(&mut outbox, &bytes[..len], place));
    }
    if sum == 255 {
        return Err(io::Error::from(io::ErrorKind::Other));
    }
    Ok(())
}
PROGRAM
cd "$work/crates/outbox_bench"
printf '\0\0' > "$work/none"
rt run < "$work/none" > /dev/null
program=$(find out -maxdepth 3 -type f -executable -name 'outbox_bench*' | head -n 1)
count_instructions() {
    printf "$1" > "$work/words"
    valgrind --tool=callgrind --callgrind-out-file="$work/callgrind" "$program" < "$work/words" 2>&1 > "$work/answer" |
        sed -n 's/.*Collected : //p'
}
none=$(count_instructions '\0\0')
echo "7609 bytes: $((($(count_instructions '\310\0') - none) / 200)) instructions to put it and take its 129 packets"
echo "1 byte: $((($(count_instructions '\310\1') - none) / 200)) instructions to put it and take its packet"
rm -rf "$work"
