"""Cases about timeouts, KEEPALIVEs, CANCEL and several hosts (CTAP 2.1, 11.2.5 and 11.2.9.1)."""

from __future__ import annotations

from typing import Any, Dict, List

from hidlog_conformance import hid_packets as hid
from hidlog_conformance.cases.corpus import INFO, RESET, SELECTION, Case, count_bytes, descriptor

PROFILE_CHOICE = "the timeout is 500 ms after the message's last packet, checked at the next input"
TOUCH: Dict[str, Any] = {"needs": ["touch"]}
EXACT_TIME: Dict[str, Any] = {"needs": ["exact time"], "profile": PROFILE_CHOICE}


def timeout_cases() -> List[Case]:
    """Returns cases about incomplete messages."""
    cases = []
    case = Case("time/message_is_given_up", "timeout", "An incomplete message times out with an ERROR.")
    cases.append(case.allocate().begin(1).tick(4000).expect("maybe error 05").expect_alive())
    case = Case("time/other_hosts_go_on", "timeout", "After an incomplete message times out, other hosts can send.")
    cases.append(case.allocate(2).begin(1).tick(4000).expect("maybe error 05").expect_alive(2))
    case = Case("time/late_packet_is_ignored", "timeout", "A message that timed out cannot be continued.")
    cases.append(case.allocate().begin(1).tick(4000).expect("maybe error 05").go_on(1).expect("silence").expect_alive())
    case = Case(
        "time/host_hears_of_it", "timeout", "A message that times out should get an ERROR with code 05.", level="should"
    )
    cases.append(case.allocate().begin(1).tick(4000).expect("error 05").expect_alive())
    case = Case("time/idle_channel_stays", "timeout", "An idle channel has no timeout.")
    cases.append(case.allocate().tick(4000).expect("silence").expect_alive())
    case = Case("time/just_in_time", "timeout", "A packet 499 ms after the last one is in time.", **EXACT_TIME)
    cases.append(case.allocate().begin(1).wait(499).go_on(1).expect("echo"))
    case = Case("time/just_too_late", "timeout", "A packet 500 ms after the last one is too late.", **EXACT_TIME)
    cases.append(case.allocate().begin(1).wait(500).go_on(1).expect("error 05").expect_alive())
    case = Case("time/each_packet_renews", "timeout", "Each packet of the message restarts the timeout.", **EXACT_TIME)
    case.allocate().begin(1, 200).wait(499).go_on(1, 0, 200).wait(499).go_on(1, 1, 200).wait(499)
    cases.append(case.go_on(1, 2, 200).expect("echo"))
    case = Case("time/cancel_renews_nothing", "timeout", "CANCEL is not a packet of the message.", **EXACT_TIME)
    case.allocate().begin(1).wait(300).send(1, hid.CANCEL).expect("silence").wait(200)
    cases.append(case.go_on(1).expect("error 05").expect_alive())
    case = Case(
        "time/others_renew_nothing", "timeout", "Packets of other channels do not restart the timeout.", **EXACT_TIME
    )
    case.allocate(2).begin(1).wait(300).send(2, hid.PING, b"a").expect("error 06 on 2").wait(200)
    cases.append(case.go_on(1).expect("error 05").expect_alive())
    for name, wait in (("499", 499), ("500", 500)):
        case = Case(f"time/other_host_at_{name}", "timeout", "The timeout is handled before the packet.", **EXACT_TIME)
        case.allocate(2).begin(1).wait(wait).send(2, hid.PING, b"a")
        cases.append(case.expect("error 06 on 2") if wait < 500 else case.expect("error 05", "echo on 2"))
    case = Case(
        "time/init_after_time", "timeout", "The timeout is handled first: ERROR, then the INIT response.", **EXACT_TIME
    )
    case.allocate().begin(1).wait(500).send(1, hid.INIT, b"\x08" * 8)
    cases.append(case.expect("error 05", "init nonce 0808080808080808 on 1"))
    return cases


def keepalive_cases() -> List[Case]:
    """Returns cases about KEEPALIVEs during a request."""
    cases = []
    case = Case(
        "keepalive/asks_for_the_user",
        "keepalive",
        "While a touch is requested, KEEPALIVEs have status 02.",
        **TOUCH,
    )
    cases.append(case.allocate().make().expect("keepalive 02").send(1, hid.CANCEL).expect("status 2d"))
    case = Case(
        "keepalive/goes_on", "keepalive", "A KEEPALIVE comes at least every 100 ms.", needs=["touch"], level="should"
    )
    case.allocate().make().expect("keepalive 02")
    for _ in range(10):
        case.tick(100).expect("keepalive 02")
    cases.append(case.send(1, hid.CANCEL).expect("status 2d"))
    case = Case("keepalive/for_a_minute", "keepalive", "A KEEPALIVE comes at least every 100 ms, without a time limit.")
    case.comment("needs: exact time")
    case.comment("profile: only the host ends the wait for a touch")
    case.allocate().make().expect("keepalive 02")
    for _ in range(600):
        case.tick(100).expect("keepalive 02")
    cases.append(case.send(1, hid.CANCEL).expect("status 2d"))
    case = Case("keepalive/not_earlier", "keepalive", "No KEEPALIVE comes before 100 ms have passed.")
    case.comment("needs: exact time")
    case.comment("profile: the standard sets a maximum interval, not a minimum")
    cases.append(
        case.allocate().make().expect("keepalive 02").tick(99).expect("silence").tick(1).expect("keepalive 02")
    )
    return cases


def keepalive_end_cases() -> List[Case]:
    """Returns cases about the channel and status of KEEPALIVEs, and their end."""
    cases = []
    case = Case("keepalive/status_changes", "keepalive", "A KEEPALIVE is sent when the status changes.")
    case.comment("needs: exact time")
    case.comment("profile: other devices may make keys and signatures at once")
    case.allocate().make().expect("keepalive 02").presence().expect("keepalive 01").tick(100).expect("keepalive 01")
    cases.append(case.key(1).expect("nothing").tick(100).expect("keepalive 01").sign().expect("made up"))
    case = Case("keepalive/ends_with_the_answer", "keepalive", "No KEEPALIVE comes after the response.", **TOUCH)
    cases.append(case.allocate().register(1).tick(250).expect("silence").expect_alive())
    case = Case("keepalive/none_for_get_info", "keepalive", "No KEEPALIVE comes after an immediate response.")
    cases.append(case.allocate().cbor(INFO).expect("info").tick(250).expect("silence"))
    case = Case(
        "keepalive/on_the_channel_that_asked", "keepalive", "KEEPALIVEs go to the channel of the request.", **TOUCH
    )
    case.allocate(3).make(2).expect("keepalive 02 on 2").tick(100).expect("keepalive 02 on 2")
    cases.append(case.send(2, hid.CANCEL).expect("status 2d on 2"))
    return cases


def cancel_cases() -> List[Case]:
    """Returns cases about CANCEL of each command that waits for a touch."""
    cases = []
    waiting = (("make", None), ("selection", SELECTION), ("reset", RESET))
    for name, data in waiting:
        more: Dict[str, Any] = {
            "needs": ["touch"] + (["reset"] if name == "reset" else []),
            "uses": ["selection"] if name == "selection" else [],
        }
        case = Case(f"cancel/{name}", "cancel", "A cancelled request returns CTAP2_ERR_KEEPALIVE_CANCEL.", **more)
        case.allocate()
        case = case.cbor(data) if data else case.make()
        cases.append(
            case.expect("keepalive 02")
            .send(1, hid.CANCEL)
            .expect("status 2d")
            .tick(200)
            .expect("silence")
            .expect_alive()
        )
    case = Case("cancel/get", "cancel", "A cancelled sign-in returns CTAP2_ERR_KEEPALIVE_CANCEL.", needs=["touch"])
    case.allocate().register(1).get(p3=[descriptor(1)]).expect("keepalive 02").send(1, hid.CANCEL).expect("status 2d")
    cases.append(case.tick(200).expect("silence").expect_alive())
    case = Case("cancel/twice", "cancel", "A second CANCEL is ignored.", needs=["touch"])
    case.allocate().make().expect("keepalive 02").send(1, hid.CANCEL).expect("status 2d")
    cases.append(case.send(1, hid.CANCEL).expect("silence").expect_alive())
    case = Case("cancel/then_the_user_touches", "cancel", "A touch after CANCEL has no effect.", needs=["touch"])
    case.allocate().make().expect("keepalive 02").send(1, hid.CANCEL).expect("status 2d")
    cases.append(case.presence().expect("silence").tick(150).expect("silence").expect_alive())
    case = Case("cancel/then_again", "cancel", "After a CANCEL the next request works.", needs=["touch"])
    case.allocate().make().expect("keepalive 02").send(1, hid.CANCEL).expect("status 2d")
    cases.append(case.register(1).get(p3=[descriptor(1)]).expect_assertion("rp example.com up counter-rises"))
    case = Case("cancel/with_bytes", "cancel", "A CANCEL with data cancels, too.", needs=["touch"])
    case.comment("profile: its length is ignored")
    cases.append(case.allocate().make().expect("keepalive 02").send(1, hid.CANCEL, b"abc").expect("status 2d"))
    return cases


def ignored_cancel_cases() -> List[Case]:
    """Returns cases about CANCEL without a pending request."""
    cases = []
    for place, channel in (("own", 1), ("strange", 9), ("broadcast", hid.BROADCAST)):
        case = Case(f"cancel/nothing_waits_{place}", "cancel", "A CANCEL without a pending request is ignored.")
        cases.append(case.allocate().send(channel, hid.CANCEL).expect("silence").expect_alive())
    for place, channel in (("another_host", 2), ("strange", 9), ("broadcast", hid.BROADCAST)):
        case = Case(
            f"cancel/of_{place}",
            "cancel",
            "A CANCEL on another channel than the request's is ignored.",
            needs=["touch"],
        )
        case.allocate(2).make().expect("keepalive 02").send(channel, hid.CANCEL).expect("nothing")
        cases.append(case.expect_credential(1))
    case = Case("cancel/inside_a_message", "cancel", "A CANCEL within an incomplete message is ignored.")
    cases.append(case.allocate().begin(1).send(1, hid.CANCEL).expect("silence").go_on(1).expect("echo"))
    return cases


def host_cases() -> List[Case]:
    """Returns cases about sessions of two or more hosts."""
    cases = []
    case = Case("hosts/each_its_channel", "busy", "Two hosts can take turns.")
    case.allocate(2)
    for channel in (1, 2, 2, 1):
        case.send(channel, hid.PING, count_bytes(80)).expect(f"echo on {channel}")
    cases.append(case)
    for name, length, command in (("ping", 1, hid.PING), ("long_ping", 100, hid.PING), ("cbor", 1, hid.CBOR)):
        data = INFO if command == hid.CBOR else count_bytes(length)
        case = Case(f"hosts/{name}_into_a_message", "busy", "During a host's message the device is busy for others.")
        case.allocate(2).begin(1).packets(hid.fragment_message(2, command, data)[:1]).expect("error 06 on 2")
        cases.append(case.go_on(1).expect("echo"))
        case = Case(
            f"hosts/{name}_into_a_request",
            "busy",
            "During a host's request the device is busy for others.",
            needs=["touch"],
        )
        case.allocate(2).make().expect("keepalive 02").packets(hid.fragment_message(2, command, data)[:1]).expect(
            "error 06 on 2"
        )
        cases.append(case.expect_credential(1))
    return cases


def later_host_cases() -> List[Case]:
    """Returns cases about hosts that send after another host."""
    cases = []
    case = Case("hosts/served_after_the_wait", "busy", "After the transaction another host can send.")
    case.allocate(2).begin(1).send(2, hid.PING, b"a").expect("error 06 on 2").go_on(1).expect("echo")
    cases.append(case.expect_alive(2))
    case = Case(
        "hosts/served_after_cancel", "busy", "After a cancelled request another host can send.", needs=["touch"]
    )
    case.allocate(2).make().expect("keepalive 02").send(1, hid.CANCEL).expect("status 2d")
    cases.append(case.cbor(INFO, 2).expect("info on 2"))
    case = Case("hosts/refused_message_leaves_nothing", "busy", "The packets of a refused message are ignored.")
    packets = hid.fragment_message(2, hid.PING, count_bytes(150))
    case.allocate(2).begin(1).packets(packets[:1]).expect("error 06 on 2").packets(packets[1:]).expect("silence")
    cases.append(case.go_on(1).expect("echo"))
    case = Case(
        "hosts/sign_in_after_another_registered", "busy", "Credentials are shared by all hosts.", needs=["touch"]
    )
    case.allocate(2).register(1).get(2, p3=[descriptor(1)])
    cases.append(case.expect_assertion("rp example.com up counter-rises", channel=2))
    case = Case(
        "hosts/new_host_while_one_waits",
        "init",
        "INIT gets a response at any time, and other requests continue.",
        needs=["touch"],
    )
    case.allocate().make().expect("keepalive 02").send(hid.BROADCAST, hid.INIT, b"\x0a" * 8)
    cases.append(case.expect("init nonce 0a0a0a0a0a0a0a0a").expect_credential(1))
    return cases


def cases() -> List[Case]:
    """Returns the cases of this file."""
    found = timeout_cases() + keepalive_cases() + keepalive_end_cases() + cancel_cases() + ignored_cancel_cases()
    return found + host_cases() + later_host_cases()
