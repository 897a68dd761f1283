"""Generates malformed logs, each from a seed: what a host, a user and a damaged file may send to the key.

A log begins as lists of events: packets of messages, and the caller's replies. They are mixed, damaged, given
timestamps and written as lines, which may be damaged again.
"""

import random
import re

from framing import BROADCAST, MAX_MESSAGE_BYTES, split_into_packets

PING, MSG, LOCK, INIT, WINK, CBOR, CANCEL = 0x81, 0x83, 0x84, 0x86, 0x88, 0x90, 0x91
MAKE, GET, INFO, PIN, RESET, NEXT, SELECTION = 0x01, 0x02, 0x04, 0x06, 0x07, 0x08, 0x0B
MAX_TIME = 2**64 - 1
RP_IDS = ("a.example", "b.example", "c.example")


def encode_head(major: int, value: int) -> bytes:
    """Returns the shortest head of a data item."""
    for extra, most in ((24, 2**8), (25, 2**16), (26, 2**32), (27, 2**64)):
        if value < 24:
            return bytes([major << 5 | value])
        if value < most:
            return bytes([major << 5 | extra]) + value.to_bytes(1 << extra - 24, "big")
    raise ValueError(f"{value} does not fit in 8 bytes")


def encode(item):
    """Encodes a number, byte string, text, list, dictionary or Boolean in canonical CBOR."""
    if isinstance(item, bool):
        return b"\xf5" if item else b"\xf4"
    if isinstance(item, int):
        return encode_head(0, item) if item >= 0 else encode_head(1, -1 - item)
    if isinstance(item, bytes):
        return encode_head(2, len(item)) + item
    if isinstance(item, str):
        return encode_head(3, len(item.encode())) + item.encode()
    if isinstance(item, list):
        return encode_head(4, len(item)) + b"".join(encode(member) for member in item)
    pairs = sorted((encode(key), encode(value)) for key, value in item.items())
    return encode_head(5, len(item)) + b"".join(key + value for key, value in pairs)


def make_packet_events(channel, command, data, length=None):
    """Returns a message's packets as events; `length` replaces the length in its header."""
    return [(">", packet) for packet in split_into_packets(channel, command, data, length)]


class LogGenerator:
    """Generates logs with one random number generator."""

    def __init__(self, seed):
        self.chance = random.Random(seed)
        self.hosts = self.choose(1, 1, 2, 3)
        self.sites = RP_IDS[: self.choose(1, 1, 2, 3)]
        # The credential IDs that were provided for each RP, used in lists of requests.
        self.made = {site: [] for site in RP_IDS}

    def happens(self, share):
        return self.chance.random() < share

    def choose(self, *choices):
        return self.chance.choice(choices)

    def random_bytes(self, count):
        return self.chance.randbytes(count)

    def choose_credential_id(self, site=None):
        """Returns a credential ID: one that was provided for the RP, or another one."""
        if site and self.made[site] and self.happens(0.7):
            return self.chance.choice(self.made[site])
        return bytes([self.chance.randrange(9)]) * 32 if self.happens(0.5) else self.random_bytes(32)

    def choose_channel(self):
        """Returns a channel, mostly an allocated one."""
        if self.happens(0.9):
            return self.chance.randint(1, self.hosts)
        return self.choose(self.hosts + 1, 0, BROADCAST, self.chance.randrange(2**32))

    def make_init_events(self, channel=BROADCAST):
        length = 8 if self.happens(0.96) else self.chance.randrange(58)
        return make_packet_events(channel, INIT, self.random_bytes(length))

    def make_reply(self):
        """Returns a reply of the caller, whether it is needed or not."""
        return self.choose(self.make_presence_reply, self.make_key_reply, self.make_signature_reply)()

    def make_presence_reply(self):
        return ("p", self.choose("granted", "granted", "granted", "granted", "denied", "timeout"))

    def make_key_reply(self, site=RP_IDS[0]):
        if self.happens(0.05):
            return ("k", "no")
        name = self.choose_credential_id()
        self.made[site].append(name)
        return ("k", f"{name.hex()} {self.random_bytes(32).hex()} {self.random_bytes(32).hex()}")

    def make_signature_reply(self):
        if self.happens(0.05):
            return ("s", "no")
        return ("s", self.random_bytes(self.choose(1, 70, 71, 72, 72)).hex())

    def make_name(self):
        """Returns a name with characters of one to four bytes."""
        return self.chance.randrange(3) * "x" + self.chance.randrange(80) * self.choose("n", "ü", "€", "𝄞", "\0")

    def make_descriptors(self, site):
        kind = "public-key" if self.happens(0.9) else "other"
        count = self.choose(0, 1, 1, 2, 3, 40 if self.happens(0.1) else 2)
        return [{"type": kind, "id": self.choose_credential_id(site)} for _ in range(count)]

    def make_options(self):
        """Returns options that are mostly valid for authenticatorMakeCredential or authenticatorGetAssertion."""
        names = self.choose(["rk"], ["rk"], ["rk"], ["up"], ["uv"], ["rk", "up", "uv", "other"])
        return {name: self.happens(0.8 if name == "rk" else 0.3) for name in names}

    def make_registration_request(self, site):
        """Returns a mostly valid authenticatorMakeCredential request."""
        user = {"id": bytes([self.chance.randrange(4)]) * self.choose(1, 1, 1, 64, 65)}
        if self.happens(0.5):
            user.update(name=self.make_name(), displayName=self.make_name())
        asked = {
            1: self.random_bytes(32),
            2: {"id": site, "name": "x"},
            3: user,
            4: [{"alg": self.choose(-7, -7, -7, -7, -8), "type": "public-key"}],
        }
        if self.happens(0.6):
            asked[7] = {"rk": True} if self.happens(0.8) else self.make_options()
        if self.happens(0.3):
            asked[5] = self.make_descriptors(site)
        if self.happens(0.03):
            asked[8] = self.random_bytes(16)
        return bytes([MAKE]) + encode(self.corrupt_parameters(asked))

    def make_assertion_request(self, site):
        """Returns a mostly valid authenticatorGetAssertion request."""
        asked = {1: site, 2: self.random_bytes(32)}
        if self.happens(0.5):
            asked[3] = self.make_descriptors(site)
        if self.happens(0.3):
            asked[5] = {"up": self.happens(0.5)} if self.happens(0.8) else self.make_options()
        if self.happens(0.03):
            asked[6] = self.random_bytes(16)
        return bytes([GET]) + encode(self.corrupt_parameters(asked))

    def corrupt_parameters(self, asked):
        """Sometimes removes, adds or changes the type of a parameter."""
        if self.happens(0.15):
            asked[self.chance.randrange(12)] = self.choose(0, -1, b"", "x", [], {}, True, [[[[[]]]]], 2**64 - 1)
        if self.happens(0.08):
            asked.pop(self.chance.choice(list(asked)))
        return asked

    def damage_bytes(self, data):
        """Returns the data with some bytes changed, removed or inserted."""
        data = bytearray(data)
        for _ in range(self.choose(1, 1, 2, 5)):
            place = self.chance.randrange(len(data) + 1)
            what = self.chance.randrange(4)
            if what == 0:
                data[place:place] = self.random_bytes(self.choose(1, 1, 3))
            elif what == 1:
                del data[place : place + self.choose(1, 1, 8)]
            elif place < len(data):
                data[place] = self.chance.randrange(256) if what == 2 else data[place] ^ 1 << self.chance.randrange(8)
        return bytes(data)

    def make_request_events(self, channel, data, *replies):
        """Returns the events of a CBOR message, and the replies that it needs if it is valid."""
        length = None
        if self.happens(0.15):
            data = self.damage_bytes(data)
        if self.happens(0.05):
            length = self.choose(0, 1, len(data) + 1, len(data) - 1, MAX_MESSAGE_BYTES, MAX_MESSAGE_BYTES + 1, 65535)
        waits = [("t",)] * self.choose(0, 0, 1, 2)
        if self.happens(0.05):
            waits += make_packet_events(channel, self.choose(CANCEL, CANCEL, INIT), bytes(8))
        return make_packet_events(channel, CBOR, data, length) + waits + list(replies)

    def make_host_events(self):
        """Returns the events of one host, which uses one channel."""
        channel = self.choose_channel()
        kinds = (
            self.make_registration_events,
            self.make_registration_events,
            self.make_registration_events,
            self.make_sign_in_events,
            self.make_sign_in_events,
            self.make_other_request_events,
        )
        return self.choose(*kinds, self.make_ping_events, self.make_unexpected_events)(channel)

    def make_registration_events(self, channel):
        site = self.choose(*self.sites)
        asked = self.make_registration_request(site)
        return self.make_request_events(
            channel, asked, self.make_presence_reply(), self.make_key_reply(site), self.make_signature_reply()
        )

    def make_sign_in_events(self, channel):
        asked = self.make_assertion_request(self.choose(*self.sites))
        events = self.make_request_events(channel, asked, self.make_presence_reply(), self.make_signature_reply())
        for _ in range(self.choose(0, 0, 1, 2, 3)):
            events += self.make_request_events(channel, bytes([NEXT]), self.make_signature_reply())
        return events

    def make_other_request_events(self, channel):
        command = self.choose(INFO, INFO, RESET, SELECTION, NEXT, PIN, self.chance.randrange(256))
        data = bytes([command]) + self.choose(b"", b"", b"", b"\xa0", self.random_bytes(3))
        return self.make_request_events(channel, self.choose(data, data, data, b""), self.make_presence_reply())

    def make_ping_events(self, channel):
        length = self.choose(0, 1, 57, 58, 116, 117, 300, MAX_MESSAGE_BYTES if self.happens(0.3) else 57)
        return make_packet_events(
            channel, PING, self.random_bytes(length), None if self.happens(0.9) else MAX_MESSAGE_BYTES + 1
        )

    def make_unexpected_events(self, channel):
        """Returns events that belong to no valid request, such as CANCEL, a part of a message, or unexpected replies."""
        what = self.chance.randrange(6)
        if what == 0:
            return make_packet_events(channel, CANCEL, b"")
        if what == 1:
            return self.make_init_events(channel)
        if what == 2:
            return make_packet_events(channel, self.choose(MSG, LOCK, WINK, 0xBB, 0xBF, 0xC0), self.random_bytes(2))
        if what == 3:
            begun = make_packet_events(channel, self.choose(PING, CBOR), self.random_bytes(200))
            return begun[self.choose(0, 1) :][: self.choose(1, 2)]
        if what == 4:
            return [(">", self.random_bytes(64))]
        return [self.make_reply() for _ in range(self.choose(1, 2, 3))]

    def make_full_table_events(self):
        """Returns registrations up to or above the capacity, and a sign-in with all credentials."""
        events = self.make_init_events()
        site, rk = self.choose(*self.sites), self.happens(0.5)
        for number in range(self.choose(20, 63, 64, 66)):
            asked = {1: bytes(32), 2: {"id": site}, 3: {"id": bytes([number])}, 7: {"rk": rk}}
            asked[4] = [{"alg": -7, "type": "public-key"}]
            events += make_packet_events(1, CBOR, bytes([MAKE]) + encode(asked)) + [("p", "granted")]
            events += [("k", f"{self.random_bytes(32).hex()} {bytes(32).hex()} {bytes(32).hex()}"), ("s", "00")]
        events += make_packet_events(1, CBOR, bytes([GET]) + encode({1: site, 2: bytes(32)}))
        events += [("p", "granted"), ("s", "01")]
        for _ in range(self.choose(1, 19, 70)):
            events += make_packet_events(1, CBOR, bytes([NEXT])) + [("s", "02")]
        return events

    def interleave_hosts(self, flows):
        """Returns the events of several hosts, one after another or interleaved."""
        if self.happens(0.6):
            return [event for flow in flows for event in flow]
        turns = [number for number, flow in enumerate(flows) for _ in flow]
        self.chance.shuffle(turns)
        sources = [iter(flow) for flow in flows]
        return [next(sources[number]) for number in turns]

    def corrupt_events(self, events):
        """Returns the events after some were removed, repeated, moved, or changed."""
        events = list(events)
        for _ in range(self.choose(1, 1, 2, 4)):
            place = self.chance.randrange(len(events))
            what = self.chance.randrange(6)
            if what == 0 and len(events) > 1:
                del events[place]
            elif what == 1:
                events.insert(place, events[self.chance.randrange(len(events))])
            elif what == 2:
                events.insert(
                    place,
                    self.choose(self.make_reply(), ("t",), make_packet_events(self.choose_channel(), CANCEL, b"")[0]),
                )
            elif what == 3:
                events.insert(place, events.pop(self.chance.randrange(len(events))))
            elif events[place][0] == ">":
                events[place] = (">", self.damage_bytes(events[place][1])[:64].ljust(64, b"\0"))
        return events

    def choose_delay(self, calm):
        """Returns the milliseconds from one input to the next."""
        if calm:
            return self.choose(0, 0, 1, 5, 20)
        return self.choose(0, 1, 99, 100, 101, 250, 499, 500, 501, 9999, 10001, 29999, 30000, 30001)

    def make_timestamps(self, count):
        """Returns the timestamps of a log's inputs, which mostly increase, but may decrease or be extreme."""
        moment = self.choose(0, 0, 0, 0, 1, self.chance.randrange(10**6), 2**32 - 1, MAX_TIME - 5, MAX_TIME)
        calm, wild = self.happens(0.7), self.happens(0.1)
        for _ in range(count):
            moment = min(MAX_TIME, moment + self.choose_delay(calm or self.happens(0.8)))
            if wild and self.happens(0.2):
                moment = self.choose(0, 1, 2**32, 2**63, MAX_TIME - 1, MAX_TIME, self.chance.randrange(MAX_TIME))
            yield moment

    def make_events(self):
        """Returns the events, in order."""
        if self.happens(0.01):
            return self.make_full_table_events()
        flows = [self.make_host_events() for _ in range(self.choose(1, 2, 3, 5, 8))]
        greetings = [event for _ in range(self.hosts) for event in self.make_init_events()]
        events = greetings + self.interleave_hosts(flows)
        return self.corrupt_events(events) if self.happens(0.5) else events

    def iter_lines(self):
        """Yields the valid lines of a log."""
        events = self.make_events()
        for event, moment in zip(events, self.make_timestamps(len(events))):
            if event[0] == ">":
                digits = event[1].hex()
                yield f"> {moment} {digits.upper() if self.happens(0.03) else digits}".encode()
            else:
                yield " ".join([event[0], str(moment), *event[1:]]).encode()

    def make_extra_line(self):
        """Returns a line that is not an input."""
        return self.choose(
            b"",
            b"#",
            b"# a comment",
            b"#" + self.random_bytes(self.chance.randrange(255)).replace(b"\n", b" "),
            b"#".ljust(255, b"#"),
            b"# need presence",
            b"# need",
            b"# need ",
            b"# signed 00",
            b"#  need key",
            b"= held 0",
            b"=",
            b"< " + self.random_bytes(64).hex().encode(),
            b"< " + self.random_bytes(64).hex().upper().encode(),
        )

    def make_invalid_line(self, line):
        """Returns a line that is most likely not a log line."""
        place = self.chance.randrange(len(line) + 1)
        return self.choose(
            line + b" ",
            b" " + line,
            line + b"\r",
            line[:place] + b" " + line[place:],
            line[:place] + self.random_bytes(1).replace(b"\n", b"\0") + line[place + 1 :],
            line[:place],
            line.replace(b" ", b"  ", 1),
            line.replace(b" ", b"\t", 1),
            line.replace(b" ", b" 0", 1),
            line.replace(b" ", b" -", 1),
            line.replace(b" ", b" 18446744073709551616 ", 1),
            b"t 18446744073709551616",
            b"t 99999999999999999999",
            b"t 00",
            b"t",
            b"x",
            b"\xef\xbb\xbf" + line,
            b"# " + b"x" * self.choose(253, 254, 255, 4000),
            b"p 0 Granted",
            b"p 0 granted granted",
            b"s 0 " + b"0" * self.choose(1, 3, 145, 146),
            b"k 0 no no",
            line + line,
            line.upper(),
        )

    def make_log(self):
        """Returns a log with malformed requests and, sometimes, an invalid line."""
        lines = list(self.iter_lines())
        while self.happens(0.4):
            lines.insert(self.chance.randrange(len(lines) + 1), self.make_extra_line())
        if self.happens(0.25):
            place = self.chance.randrange(len(lines))
            lines[place:place] = [self.make_invalid_line(lines[place])]
        return b"\n".join(lines) + self.choose(b"\n", b"\n", b"")


def hostile_log(seed, number):
    """Returns the log with this number, generated from this seed."""
    return LogGenerator(f"{seed}/{number}").make_log()


def hostile_snapshot(seed, number, snapshot):
    """Returns a snapshot that is damaged, or whose small signature counters are set to the maximum."""
    maker = LogGenerator(f"{seed}/{number}/snapshot")
    if maker.happens(0.5):
        return maker.damage_bytes(snapshot)
    # In a snapshot, the member 7 (the signature counter) follows the member 6 (whether the credential is discoverable).
    end = maker.choose(b"\xff\xff\xff\xff", b"\xff\xff\xff\xfe")
    return re.sub(rb"(\x06[\xf4\xf5]\x07)[\x00-\x17]", lambda found: found[1] + b"\x1a" + end, snapshot)
