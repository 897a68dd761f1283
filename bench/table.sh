#!/usr/bin/env bash
# Counts, with callgrind, the instructions of each function of the two tables for credentials in the crate cred_table:
# `Listed` (a list of rows) and `Chained` (linked lists by age and by ID). Each table has capacity for 256 rows, and has
# 1, 64 or 256 rows. Needs rt and valgrind.
#
#     bench/table.sh [DIR]        DIR is the directory for the program and copies of the crates [default: a new one]
#
# The count of a function is that of one round: a run of 1,020 rounds minus a run without rounds, divided by 1,020. A
# round is one call, after the calls that its precondition requires: `raise` requires a `find`, and `replace` a `find`
# and a
# `same_user`. For `put`, a round clears the table and puts all rows, each after a `find`. Its count is the mean of 16
# rounds, minus one call of `clear`, divided by the number of rows.
set -eu
here=$(cd "$(dirname "$0")" && pwd)
work=${1:-$(mktemp -d)}
mkdir -p "$work/crates/table_bench/src"
cp "$here/../HANDLES" "$work/"
for crate in ctap_cbor cred_table; do
    rm -rf "$work/crates/$crate"
    cp -r "$here/../crates/$crate" "$work/crates/"
done
printf '%s\n' 'ctap_cbor: byteorder thiserror' 'cred_table: ctap_cbor arrayvec thiserror' \
    'table_bench: cred_table' > "$work/crates.txt"
cat > "$work/crates/table_bench/src/main.rt" <<'PROGRAM'
//! Calls a table, as specified by four bytes on standard input: the table, the call, its number of rows minus one, and
//! a quarter of the number of rounds.
#![tactic(auto)]

use cred_table::{Chained, Listed, Row, Table};
use std::io;
use std::io::Read;

/// A row by number. Its ID starts with any of the 256 bytes.
fn row_of(number: u32, user: u32) -> Row {
    let mut row = Row {
        discoverable: true,
        ..Row::default()
    };
    row.id[0] = (number % 256 * 37 % 256) as u8;
    row.id[1] = (number / 256 % 256) as u8;
    row.id[2] = (number / 65536 % 256) as u8;
    let handle = [(user % 256) as u8, (user / 256 % 256) as u8];
    let _ = row.user.try_extend_from_slice(&handle);
    row
}

/// Puts a row, if its ID and user are new.
fn put<T: Table<256>>(table: &mut T, row: Row) {
    if table.len() >= 256 {
        return;
    }
    if table.find(&row.id).is_some() {
        return;
    }
    if row.discoverable && table.same_user(&row.rp, row.user.as_slice()).is_some() {
        return;
    }
    table.put(row);
}

/// Puts a number of rows. Rows that are not discoverable need no check of the user.
fn fill<T: Table<256>>(table: &mut T, rows: u32, discoverable: bool) {
    for number in 0..rows {
        let mut row = row_of(number, number);
        row.discoverable = discoverable;
        put(table, row);
    }
}

/// Replaces the row of a user.
fn replace<T: Table<256>>(table: &mut T, row: Row) {
    if table.find(&row.id).is_some() {
        return;
    }
    match table.same_user(&row.rp, row.user.as_slice()) {
        Some(old) => table.replace(&old, row),
        None => (),
    }
}

/// Raises a row's counter.
fn raise<T: Table<256>>(table: &mut T, id: &[u8; 32]) -> u32 {
    match table.find(id).map(|row| row.counter) {
        Some(counter) if counter < u32::MAX => table.raise(id),
        _ => 0,
    }
}

/// One round of a call on a row. The result depends on what was found.
fn round<T: Table<256>>(table: &mut T, call: u8, rows: u32, number: u32) -> u32 {
    let row = row_of(number, number);
    match call {
        b'f' => table.find(&row.id).map_or(0, |row| row.counter),
        b'n' => table.named(&row.rp, &row.id).map_or(0, |row| row.counter),
        b'u' => table
            .same_user(&row.rp, row.user.as_slice())
            .map_or(0, |id| u32::from(id[0])),
        b'r' => raise(table, &row.id),
        b'c' => {
            table.clear();
            0
        }
        b'p' => {
            table.clear();
            fill(table, rows, false);
            0
        }
        _ => 0,
    }
}

/// The rounds of a call. Rows are used in a mixed order, and replacements have new IDs.
fn run<T: Table<256>>(table: &mut T, call: u8, rows: u32, rounds: u32) -> u32 {
    fill(table, rows, true);
    let mut sum: u32 = 0;
    for count in 0..rounds {
        let number = count % 1024 * 101 % 1024 % rows.max(1);
        if call == b'x' {
            replace(table, row_of(count.saturating_add(256), number));
        } else {
            sum = sum.wrapping_add(round(table, call, rows, number));
        }
    }
    sum
}

fn main(rt: HostRuntime) -> io::Result<()> {
    let mut bytes = Vec::new(rt.alloc());
    rt.stdin().read_to_end(&mut bytes)?;
    let mut sum = 0;
    if let [table, call, less_one, quarter] = *bytes.as_slice() {
        let rows = u32::from(less_one) + 1;
        let rounds = u32::from(quarter) * 4;
        if table == b'c' {
            sum = run(&mut Chained::<256>::new(), call, rows, rounds);
        } else {
            sum = run(&mut Listed::<256>::new(), call, rows, rounds);
        }
    }
    println!(rt; "{sum}")
}
PROGRAM
cd "$work/crates/table_bench"
printf 'cf\0\0' > "$work/input"
rt run < "$work/input" > "$work/answer"
program=$(find out -maxdepth 3 -type f -executable -name 'table_bench*' | head -n 1)
# Prints the number of instructions of a run with 4 * QUARTERS rounds: count_instructions TABLE CALL ROWS QUARTERS
count_instructions() {
    printf "$1$2\\x$(printf %x $(($3 - 1)))\\x$(printf %x "$4")" > "$work/input"
    valgrind --tool=callgrind --callgrind-out-file="$work/callgrind" "$program" < "$work/input" 2>&1 > "$work/answer" |
        sed -n 's/.*Collected : //p'
}
# Prints the mean number of instructions of one round: count_round_instructions TABLE CALL ROWS
count_round_instructions() {
    local quarters=$((256 - 1))
    if [ "$2" = p ]; then quarters=4; fi
    echo $((($(count_instructions "$1" "$2" "$3" "$quarters") - $(count_instructions "$1" "$2" "$3" 0)) / (quarters * 4)))
}
declare -A put
printf '%-10s %6s %8s %8s\n' call rows Listed Chained
for rows in 1 64 256; do
    for call in find:f named:n same_user:u replace:x raise:r clear:c; do
        printf '%-10s %6s %8s %8s\n' "${call%:*}" "$rows" \
            "$(count_round_instructions l "${call#*:}" "$rows")" "$(count_round_instructions c "${call#*:}" "$rows")"
    done
    for table in l c; do
        put[$table]=$((($(count_round_instructions $table p "$rows") - $(count_round_instructions $table c 1)) / rows))
    done
    printf '%-10s %6s %8s %8s\n' put "$rows" "${put[l]}" "${put[c]}"
done
