#!/usr/bin/env python3
"""Simulates up to eight hosts with security keys of other makers, and checks what `show` prints for their packets.

    tests/fuzz/other_keys.py [--seed N] [--count N] [--program FILE] [--only NUMBER]

A key serves one message at a time, as CTAP 2.1 (section 11.2) requires. Where the section leaves a choice, each key
behaves in its own way: the timeout of an incomplete message and whether the key reports it, whether it rejects or
ignores a message from another host or a second one on the same channel, whether a second message replaces the current
one, waits, or is answered meanwhile, the effect of CANCEL, KEEPALIVEs for U2F, the KEEPALIVE interval (up to 2.5
seconds), and the padding. Hosts lose packets, send some twice, don't always wait for a response, and send a request again if
there was no response. A recorder loses some of the key's packets, or all of them. The transaction of each packet is
recorded when it is sent. `show --json` must name the same transaction or none. `show --summary --json` must not count
more registrations and sign-ins than there were. A sign-in with the option `up` false, with which clients look for a
credential, doesn't count.

A log doesn't show when a key drops a message silently. So a continuation packet and a CANCEL may be attributed to any
message of their channel, and a message dropped silently may be reported as open, dropped or replaced. A log doesn't
show either that a response was lost, so a later response on the channel may be taken for the lost one.
"""

from __future__ import annotations

import collections
import json
import random
import subprocess
import sys
from typing import Any, Iterator, Optional

sys.dont_write_bytecode = True

from framing import BROADCAST, split_into_packets
from runner import check_logs
from other_key import ASSERT, CANCEL, CBOR, ENDS_BY_OTHER_MESSAGE, INFO, INIT, MAKE, MSG, PING, SILENT, TOUCHED
from other_key import UNANSWERED_ENDS, WINK, Key, Log, Message

# Logs of the seed 1 for which an earlier version found a wrong transaction.
FORMERLY_WRONG = (2317, 2817, 5995, 7011, 7531)


def make_host_packets(chance: random.Random, channel: int) -> list[bytes]:
    """Returns the packets of one message, some of which may be lost or sent twice."""
    some = chance.random()
    if some < 0.25:
        sent = split_into_packets(channel, PING, bytes(chance.choice([1, 57, 58, 130, 200])))
    elif some < 0.55:
        sent = split_into_packets(channel, CBOR, chance.choice([MAKE, ASSERT]) + bytes(chance.choice([10, 80, 200])))
        if chance.random() < 0.5:
            sent = split_into_packets(channel, CBOR, ASSERT + chance.choice([SILENT, TOUCHED]))
    elif some < 0.7:
        sent = split_into_packets(channel, CBOR, INFO)
    elif some < 0.76:
        sent = split_into_packets(channel, INIT, chance.randbytes(8))
    elif some < 0.8:
        sent = split_into_packets(channel, INIT, bytes(7))
    elif some < 0.87:
        sent = split_into_packets(channel, CANCEL, b"")
    elif some < 0.92:
        sent = split_into_packets(channel, MSG, bytes(chance.choice([7, 70])))
    else:
        sent = split_into_packets(channel, chance.choice([WINK, 0x41]), b"")
    if len(sent) > 1 and chance.random() < 0.12:
        sent.pop(chance.randrange(len(sent)))
    if chance.random() < 0.05:
        sent += make_repeated_packets(chance, sent[-1:])
    return sent


def make_repeated_packets(chance: random.Random, sent: list[bytes]) -> list[bytes]:
    """Returns the packets to send again. INIT gets a new nonce, because packets don't show to which of two INITs with
    the same nonce a response belongs."""
    is_init = sent[0][4] == 0x80 | INIT and sent[0][6] == 8
    return [sent[0][:7] + chance.randbytes(8) + sent[0][15:]] if is_init else sent


def simulate(chance: random.Random) -> Log:
    """Simulates one to eight hosts that use one key."""
    log = Log()
    log.loss = chance.choice([0.0] * 7 + [0.02, 0.1, 1.0])
    key = Key(chance, log)
    flows: list[collections.deque[bytes | int]] = []
    for _ in range(chance.choice([1, 1, 1, 2, 2, 3, 3, 8])):
        key.handle_packet(split_into_packets(BROADCAST, INIT, chance.randbytes(8))[0])
        flow: collections.deque[bytes | int] = collections.deque()
        for _ in range(chance.choice([1, 2, 3, 5])):
            sent = make_host_packets(chance, key.channels)
            # An impatient host sends the same message again.
            for again in range(chance.choice([1, 1, 1, 1, 1, 2])):
                flow.extend(make_repeated_packets(chance, sent) if again else sent)
                flow.append(chance.choice([0, 1, 50, 120, 120, 300, 600, 1200]))
        flows.append(flow)
    while any(flows):
        some = chance.choice([flow for flow in flows if flow]).popleft()
        if isinstance(some, int):
            key.advance_to(key.now + some)
            if chance.random() < 0.5:
                key.reply()
        else:
            key.handle_packet(some)
    key.advance_to(key.now + chance.choice([0, 5000]))
    return log


def find_transaction_error(log: Log, line: int, said: Optional[int]) -> Optional[str]:
    """Returns how the transaction that `show` names for a packet is wrong, or None."""
    if said in (None, log.owners[line], *log.allowed.get(line, [])):
        return None
    own, other = log.messages.get(log.owners[line] or 0), log.messages.get(said)
    if own and other and own.channel == other.channel and own.channel in log.lossy:
        return None
    return f"line {line} belongs to transaction {log.owners[line]}, not {said}"


def find_end_error(log: Log, message: Message, said: dict[str, object]) -> Optional[str]:
    """Returns how the end that `show` names for a message is wrong, or None."""
    if message.channel in log.lossy:
        return None
    how = said["end"]
    detail = {"status": "status", "error": "code"}.get(str(how))
    end = (how, said[detail]) if detail else (how,)
    if end == message.end or how in ("unknown", "forgotten"):
        return None
    if message.end[0] in ("silent", *ENDS_BY_OTHER_MESSAGE) and how in UNANSWERED_ENDS:
        return None
    # No packet shows whether the key kept the message when an INIT with an invalid length followed.
    if how == "dropped":
        return None
    return f"the message from line {message.line} ended with {message.end}, not {end}"


def find_reply_error(message: Message, said: dict[str, object]) -> Optional[str]:
    """Returns how the user's response time in the output of `show` is wrong, or None."""
    took = said.get("userTook")
    if took in (None, message.took):
        return None
    return f"the user took {message.took} ms for the message from line {message.line}, not {took}"


def find_summary_error(log: Log, said: dict[str, Any]) -> Optional[str]:
    """Returns how the counts of a summary are wrong, or None."""
    # If the KEEPALIVE that asked for a reply was lost, the reply is unexpected.
    if said["unexpectedReplies"] and log.replies and not log.has_lost:
        return "a requested reply is reported as unexpected"
    done = [message for message in log.messages.values() if message.end == ("status", 0)]
    made = sum(message.data[:1] == MAKE for message in done)
    used = sum(message.data[:1] == ASSERT and message.data[1:] != SILENT for message in done)
    if said["credentialsMade"] > made or said["credentialsUsed"] > used:
        return f"{made} registrations and {used} sign-ins, not {said['credentialsMade']} and {said['credentialsUsed']}"
    return None


def check_log(task: tuple[str, str, int]) -> tuple[int, Optional[str], int]:
    """Simulates the log with this number, and checks it. Returns the finding, if any, and the number of packets and
    messages whose transaction was named."""
    program, seed, number = task
    log = simulate(random.Random(f"{seed}/{number}"))
    text = "".join(f"{line}\n" for line in log.lines).encode()

    def show(*words: str) -> Iterator[dict[str, Any]]:
        words = (program, "show", *words, "--json")
        shown = subprocess.run(words, input=text, capture_output=True, check=True, timeout=600).stdout
        return map(json.loads, shown.splitlines())

    told = 0
    wrong = find_summary_error(log, list(show("--summary"))[-1])
    if wrong:
        return number, wrong, told
    for row in show():
        wrong = None
        if row["kind"] in ("packet", "presence"):
            told += "transaction" in row
            wrong = find_transaction_error(log, row["line"], row.get("transaction"))
        elif row["kind"] == "transaction":
            told += row["end"] not in ("unknown", "forgotten")
            message = log.messages[row["transaction"]]
            wrong = find_end_error(log, message, row) or find_reply_error(message, row)
        if wrong:
            return number, wrong, told
    return number, None, told


def main() -> int:
    return check_logs(
        __doc__ or "",
        check_log,
        "{} logs, {} packets and messages identified, {} logs with a wrong result",
        lambda seed, number: simulate(random.Random(f"{seed}/{number}")).lines,
        FORMERLY_WRONG,
    )


if __name__ == "__main__":
    sys.exit(main())
