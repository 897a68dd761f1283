"""Cases about packets, messages and the transport's responses (CTAP 2.1, 11.2)."""

from __future__ import annotations

from typing import Any, Dict, List

from hidlog_conformance import hid_packets as hid
from hidlog_conformance.cases.corpus import INFO, MAKE, NONCE, Case, count_bytes, registration_parameters
from hidlog_conformance.ctap_cbor import encode
from hidlog_conformance.text import quantity

UNALLOCATED_CHANNEL = 9
SIZES = (0, 1, 2, 56, 57, 58, 59, 115, 116, 117, 118, 174, 175, 176, 256, 512, 1023, 1024, 2048, 4096, 7549, 7550, 7551)


def ping_cases() -> List[Case]:
    """Returns cases about PINGs with lengths around packet boundaries."""
    cases = []
    for size in SIZES + (7608, 7609):
        more: Dict[str, Any] = {"uses": ["messages of 7609"]} if size > 1024 else {}
        case = Case(
            f"ping/bytes_{size:04}", "ping", f"A PING of {quantity(size, 'byte')} is returned unchanged.", **more
        )
        if size > 57:
            case.comment("why: The first packet has 57 bytes of data, the others 59.")
        cases.append(case.allocate().send(1, hid.PING, count_bytes(size)).expect("echo"))
    case = Case("ping/padding_is_ignored", "packets", "Padding is ignored.")
    packet = hid.fragment_message(1, hid.PING, b"abc")[0]
    cases.append(case.allocate().packets([packet[:10] + b"\xff" * 54]).expect("ping 616263"))
    case = Case("ping/zeros_behind", "packets", "Unused bytes of a packet should be zero.", level="should")
    cases.append(case.allocate().packets([packet[:10] + b"\xff" * 54]).expect("ping 616263", "zeros"))
    case = Case("ping/padding_of_a_continuation", "packets", "Padding in a continuation packet is ignored.")
    first, last = hid.fragment_message(1, hid.PING, count_bytes(60))
    cases.append(case.allocate().packets([first, last[:8] + b"\xff" * 56]).expect("echo"))
    case = Case("ping/many_in_a_row", "ping", "Several PINGs in a row get their responses.")
    case.allocate()
    for size in (3, 100, 0, 57, 58):
        case.send(1, hid.PING, count_bytes(size)).expect("echo")
    return cases + [case]


def init_cases() -> List[Case]:
    """Returns cases about INIT on the broadcast channel and on an allocated one."""
    cases = []
    for name, nonce in (
        ("count", NONCE),
        ("zeros", bytes(8)),
        ("ones", b"\xff" * 8),
        ("mixed", b"\xa5\0\xff\1\x80\7\0\x10"),
    ):
        case = Case(f"init/nonce_{name}", "init", "The response has the nonce of the request, and a new channel.")
        cases.append(case.send(hid.BROADCAST, hid.INIT, nonce).expect(f"init nonce {nonce.hex()}"))
    case = Case("init/eight_channels", "init", "Each INIT on the broadcast channel allocates a new channel.")
    case.allocate(8)
    for number in range(1, 9):
        case.expect_alive(number)
    cases.append(case)
    case = Case("init/padding_is_ignored", "init", "Padding after the nonce is ignored.")
    packet = hid.fragment_message(hid.BROADCAST, hid.INIT, NONCE)[0]
    cases.append(case.packets([packet[:15] + b"\xee" * 49]).expect(f"init nonce {NONCE.hex()}"))
    case = Case("init/on_its_own_channel", "init", "INIT on an allocated channel returns this channel.")
    case.allocate().send(1, hid.INIT, b"\x08" * 8).expect("init nonce 0808080808080808 on 1")
    cases.append(case.expect_alive())
    case = Case("init/on_its_own_channel_twice", "init", "INIT on an allocated channel allocates no new one.")
    case.allocate()
    for byte in (b"\1", b"\2"):
        case.send(1, hid.INIT, byte * 8).expect(f"init nonce {byte.hex() * 8} on 1")
    cases.append(case.expect_alive())
    case = Case("init/drops_an_open_message", "abort", "INIT aborts an incomplete message on its channel.")
    case.allocate().begin(1).send(1, hid.INIT, b"\x08" * 8).expect("init nonce 0808080808080808 on 1")
    cases.append(case.go_on(1).expect("nothing").expect_alive())
    case = Case("init/drops_waiting_work", "abort", "INIT aborts a pending request on its channel.")
    case.allocate().make().expect("keepalive 02").send(1, hid.INIT, b"\x08" * 8).expect(
        "init nonce 0808080808080808 on 1"
    )
    cases.append(case.tick(200).expect("silence").expect_alive())
    return cases + invalid_init_cases()


def invalid_init_cases() -> List[Case]:
    """Returns cases about INIT with a wrong length."""
    cases = []
    for length in (0, 1, 7, 9, 16, 57):
        for place, channel in (("broadcast", hid.BROADCAST), ("own_channel", 1)):
            requirement = f"INIT of {quantity(length, 'byte')} instead of 8 is refused."
            case = Case(f"init/{place}_length_{length:02}", "init", requirement)
            case.allocate().send(channel, hid.INIT, count_bytes(length)).expect(f"error 03 on {channel:08x}")
            cases.append(case.expect_alive())
    return cases


def channel_cases() -> List[Case]:
    """Returns cases about channels that were not allocated, channel 0 and the broadcast channel."""
    cases = []
    commands = (
        ("ping", hid.PING, b"a"),
        ("cbor", hid.CBOR, INFO),
        ("init", hid.INIT, NONCE),
        ("msg", hid.MSG, b"\0" * 7),
    )
    for name, command, data in commands:
        for place, channel in (("strange", UNALLOCATED_CHANNEL), ("zero", 0), ("broadcast", hid.BROADCAST)):
            if name == "init" and place == "broadcast":
                continue
            requirement = f"{name.upper()} on a channel that was not allocated is refused."
            case = Case(
                f"channels/{name}_on_{place}",
                "channels",
                requirement,
                "Channel 0 is reserved, and the broadcast channel is only for INIT.",
            )
            case.allocate().send(channel, command, data).expect(f"error 0b on {channel:08x}")
            cases.append(case.expect_alive())
    case = Case("channels/before_any_init", "channels", "Before an INIT no channel is allocated.")
    cases.append(case.send(UNALLOCATED_CHANNEL, hid.PING, b"a").expect(f"error 0b on {UNALLOCATED_CHANNEL:08x}"))
    for place, channel in (("strange", UNALLOCATED_CHANNEL), ("own", 1), ("broadcast", hid.BROADCAST), ("zero", 0)):
        case = Case(
            f"channels/continuation_on_{place}", "sequence", "A continuation packet outside any transaction is ignored."
        )
        cases.append(case.allocate().go_on(channel).expect("silence").expect_alive())
    return cases


def command_cases() -> List[Case]:
    """Returns cases about unsupported commands, and invalid lengths."""
    cases = []
    served = {"msg": (hid.MSG, ["no msg"]), "wink": (hid.WINK, ["no wink"])}
    for name, (command, uses) in served.items():
        case = Case(f"commands/{name}", "error", f"{name.upper()} is refused without its capability.", uses=uses)
        cases.append(case.allocate().send(1, command, b"").expect("error 01").expect_alive())
    for command in (0x00, 0x02, 0x05, 0x07, 0x12, 0x20, 0x3A, 0x3C, 0x3E):
        case = Case(f"commands/unknown_{command:02x}", "error", "An unknown command is refused.")
        cases.append(case.allocate().send(1, command, b"a").expect("error 01").expect_alive())
    for command, name in ((hid.KEEPALIVE, "keepalive"), (hid.ERROR, "error")):
        case = Case(f"commands/{name}_from_the_host", "error", "A message that only devices send is refused.")
        cases.append(case.allocate().send(1, command, b"\1").expect("error 01").expect_alive())
    for command, name in ((hid.LOCK, "lock"), (0x40, "vendor_40"), (0x7F, "vendor_7f")):
        case = Case(
            f"commands/{name}", "error", "An unsupported optional command is refused.", profile="it is not supported"
        )
        cases.append(case.allocate().send(1, command, b"").expect("error 01").expect_alive())
    for length in (7610, 7611, 0x7FFF, 0xFFFF):
        case = Case(f"commands/ping_length_{length}", "packets", "An invalid length is refused.")
        cases.append(case.allocate().send(1, hid.PING, b"", length).expect("error 03").expect_alive())
        case = Case(f"commands/cbor_length_{length}", "packets", "An invalid length is refused.")
        cases.append(case.allocate().send(1, hid.CBOR, INFO, length).expect("error 03").expect_alive())
    case = Case("commands/cbor_length_0", "cbor command", "A CBOR message has at least its command byte.")
    cases.append(case.allocate().send(1, hid.CBOR, b"").expect("error 03 or status").expect_alive())
    for command in (0x00, 0x03, 0x05, 0x0E, 0x3F, 0xFF):
        case = Case(f"commands/ctap_{command:02x}", "commands", "An unknown command byte is refused.")
        cases.append(case.allocate().cbor(bytes([command])).expect("status 01").expect_alive())
    return cases


def sequence_cases() -> List[Case]:
    """Returns cases about continuation packets out of order."""
    cases = []
    for name, number in (("skips_one", 1), ("far", 5), ("last", 0x7F)):
        case = Case(
            f"sequence/first_{name}",
            "sequence",
            "A continuation packet with a wrong sequence number is refused.",
        )
        cases.append(case.allocate().begin(1, 200).go_on(1, number, 200).expect("error 04").expect_alive())
    case = Case("sequence/repeated", "sequence", "A repeated sequence number is refused.")
    cases.append(case.allocate().begin(1, 200).go_on(1, 0, 200).go_on(1, 0, 200).expect("error 04").expect_alive())
    case = Case("sequence/second_skips_one", "sequence", "A skipped sequence number is refused.")
    cases.append(case.allocate().begin(1, 300).go_on(1, 0, 300).go_on(1, 2, 300).expect("error 04").expect_alive())
    case = Case(
        "sequence/message_is_dropped", "sequence", "After a wrong sequence number the message cannot be continued."
    )
    cases.append(case.allocate().begin(1).go_on(1, 1).expect("error 04").go_on(1, 0).expect("silence").expect_alive())
    case = Case("sequence/of_another_channel", "sequence", "A continuation packet on another channel has no effect.")
    case.allocate(2).begin(1).go_on(2).expect("silence").go_on(1).expect("echo")
    cases.append(case)
    case = Case("sequence/after_the_last", "sequence", "A continuation packet after a complete message is ignored.")
    cases.append(
        case.allocate().send(1, hid.PING, count_bytes(100)).expect("echo").go_on(1, 1).expect("silence").expect_alive()
    )
    case = Case("sequence/cbor_message", "sequence", "A CBOR message out of order is refused, and not processed.")
    packets = hid.fragment_message(1, hid.CBOR, MAKE + encode(registration_parameters()))
    cases.append(
        case.allocate().packets([packets[0], packets[2]]).expect("error 04").tick(150).expect("silence").expect_alive()
    )
    case = Case("sequence/init_packet_inside", "sequence", "An initialization packet within a message aborts it.")
    case.comment("profile: the standard does not say how a host that starts over without INIT is answered")
    cases.append(
        case.allocate().begin(1).send(1, hid.PING, b"a").expect("error 04").go_on(1).expect("silence").expect_alive()
    )
    return cases


def cases() -> List[Case]:
    """Returns the cases of this file."""
    return ping_cases() + init_cases() + channel_cases() + command_cases() + sequence_cases()
