"""Generates the steps of a walk: requests of several RPs, users and hosts, right and wrong PINs and tokens, power
cycles."""

from __future__ import annotations

import hashlib
import random
from typing import Any, Callable, Dict, List, Optional, Tuple

from hidlog_conformance import hid_packets as hid
from hidlog_conformance.answers import MAX_RETRIES
from hidlog_conformance.cases.corpus import GET, INFO, KIND, MAKE, NEXT, RESET, Case
from hidlog_conformance.cases.pin import PIN
from hidlog_conformance.ctap_cbor import encode
from hidlog_conformance.device_info import DeviceInfo
from hidlog_conformance.judged_parts import CHANGE_PIN, GET_AGREEMENT, GET_RETRIES, GET_TOKEN, SET_PIN
from hidlog_conformance.known_answers import GETS, MAKES, Secrets
from hidlog_conformance.platform_side import PADDED_PIN

RPS = ("example.com", "example.org", "login.example.com", "a.b")
USERS = (b"\1", b"alice\0\0\0\0", b"u" * 64)
HOSTS = 2
# getPinUvAuthTokenUsingPinWithPermissions.
NEW_TOKEN = 9
PIN_LENGTH = 6
# Milliseconds between steps; a longer wait, and a wait that ends pending assertions.
PAUSES, LONG, LONGER = (1, 5, 40), 3000, 31000
# The number of credentials after which the device is reset, and the maximum number of entries in a list.
FULL, MAX_LISTED = 20, 3


class Block(Case):
    """The inputs of one step, which shrinking keeps or removes together."""

    def __init__(self, at: int, channel: int = 1) -> None:
        self.name = ""
        self.began = self.at = at
        self.channel = channel
        self.lines: List[str] = []

    def expect_judged(self, more: str = "") -> Block:
        """Expects a response that the judge accepts."""
        self.comment("expect judged" + more + (f" on {self.channel:08x}" if self.channel != 1 else ""))
        return self

    def ask(self, data: bytes, more: str = "") -> Block:
        """Sends a request, and expects a response that the judge accepts."""
        self.cbor(data, self.channel)
        return self.expect_judged(more)

    def greet_hosts(self) -> Block:
        """Allocates a channel for each host."""
        self.allocate(HOSTS)
        return self


# The first bytes of the IDs that walks use for credentials, before the credential's number.
ID_FRONT = b"\xa7" * 28
ID_LENGTH = 32


def walk_id(number: int) -> bytes:
    """Returns the ID that a walk uses for its credential `number`."""
    return ID_FRONT + number.to_bytes(ID_LENGTH - len(ID_FRONT), "big")


def make_colliding_pin(pin: bytes, source: random.Random) -> bytes:
    """Returns another PIN of the same length whose hash begins with the same byte."""
    first = hashlib.sha256(pin).digest()[0]
    while True:
        other = b"".join(b"%d" % source.randrange(10) for _ in range(len(pin)))
        if other != pin and hashlib.sha256(other).digest()[0] == first:
            return other


class Steps:
    """Generates steps for a device, by a seed, and by the host's secrets."""

    def __init__(self, seed: int, device_info: DeviceInfo) -> None:
        self.random = random.Random(seed)
        self.device_info = device_info
        self.at = 0
        self.made = 0
        # The RP of each credential by its number; and the numbers of credentials since the last reset.
        self.rps: Dict[int, str] = {}
        self.present: List[int] = []
        # The users of discoverable credentials since the last reset, by number.
        self.users: Dict[int, bytes] = {}
        protocols = device_info.info.get(6) if isinstance(device_info.info.get(6), list) else []
        self.protocol = self.random.choice(protocols) if protocols else 0
        self.secrets = Secrets()
        self.actions = self.list_actions()

    def list_actions(self) -> List[Tuple[float, Callable[[], Block]]]:
        """Returns the possible actions with their weights."""
        found: List[Tuple[float, Callable[[], Block]]] = [
            (14, self.make),
            (22, self.get),
            (8, self.next),
            (3, self.sign_in_to_all),
            (4, self.info),
            (2, self.ping),
            (5, self.power_cycle),
            (2, self.wait),
            (4, self.use_outdated),
        ]
        if self.has_pin:
            found += [
                (10, self.get_token),
                (5, self.ask_retries),
                (4, self.set_or_change),
                (4, self.use_token_twice),
                (3, self.try_wrong_pin),
            ]
            found += [(0.3, self.block_pin)]
        return found

    @property
    def has_pin(self) -> bool:
        """Whether the device supports PINs."""
        return bool(self.protocol) and self.device_info.options.get("clientPin") is not None

    def new_block(self) -> Block:
        """Returns an empty step of one of the hosts."""
        self.at += self.random.choice(PAUSES)
        return Block(self.at, self.random.choice((1, 1, HOSTS)))

    def choose(self, secrets: Secrets) -> Block:
        """Returns the next step; `secrets` are the PIN and the token."""
        self.secrets = secrets
        is_blocked = self.has_pin and not secrets.retries
        if len(self.present) >= FULL or (is_blocked and self.happens(0.3)) or self.happens(0.004):
            return self.reset()
        actions = [action for _, action in self.actions]
        weights = [weight for weight, _ in self.actions]
        block = self.random.choices(actions, weights)[0]()
        self.at = block.at
        return block

    def happens(self, part: float) -> bool:
        """Returns True with the probability `part`."""
        return self.random.random() < part

    # Steps without a credential.

    def reset(self) -> Block:
        """Resets the device right after a power cycle. This is the first step, after which the device's state is
        known."""
        self.present = []
        self.users = {}
        block = self.power_cycle()
        self.at = block.at
        return block.ask(RESET).ask(INFO)

    def power_cycle(self) -> Block:
        """Power cycles the device; the hosts allocate channels again."""
        block = self.new_block()
        block.channel = 1
        block.tick().power_cycle()
        return block.greet_hosts()

    def use_outdated(self) -> Block:
        """Uses pending assertions, or a token, after a power cycle."""
        rp = self.random.choice(RPS)
        if self.secrets.pin and self.happens(0.6):
            before = self.ask_token(self.new_block(), self.secrets.pin, MAKES | GETS, rp)
            param = {8: b"=token:1", 9: self.protocol}
        else:
            before, param = self.new_block().ask(GET + encode({1: rp, 2: self.random.randbytes(32)})), {}
        block = self.power_cycle()
        block.lines, block.began = before.lines + block.lines, before.began
        if not param:
            return block.ask(NEXT)
        return block.ask(self.registration_request(rp, param), self.count_credential(rp))

    def info(self) -> Block:
        """Asks for getInfo."""
        return self.new_block().ask(INFO)

    def ping(self) -> Block:
        """Sends a PING."""
        block = self.new_block()
        block.send(
            block.channel, hid.PING, bytes(self.random.randrange(256) for _ in range(self.random.choice((1, 90))))
        )
        return block.expect_judged()

    def wait(self) -> Block:
        """Waits; pending assertions end after 30 seconds."""
        block = self.new_block()
        block.tick(self.random.choice((LONG, LONGER)))
        self.at = block.at
        return block.ask(INFO)

    def next(self) -> Block:
        """Asks for a further assertion."""
        return self.new_block().ask(NEXT)

    def sign_in_to_all(self) -> Block:
        """Signs in without a list, and asks for all further assertions, and for one more."""
        block, rp = self.new_block(), self.random.choice(RPS)
        asked: Dict[int, Any] = {1: rp, 2: self.random.randbytes(32)}
        if self.happens(0.5):
            asked[5] = {"up": False}
        block.ask(GET + encode(asked))
        for _ in range(len({user for number, user in self.users.items() if self.rps[number] == rp}) + 1):
            block.ask(NEXT)
        return block

    # Registrations and sign-ins.

    def choose_list(self, rp: str) -> Optional[List[Dict[str, Any]]]:
        """Returns a list of credentials of this RP, of another RP, from before a reset, or unknown ones; or None."""
        if self.happens(0.45):
            return None
        own = [number for number in self.present if self.rps[number] == rp]
        others = [number for number in self.present if self.rps[number] != rp]
        old = [number for number in self.rps if number not in self.present]
        chosen = []
        for _ in range(self.random.randrange(1, MAX_LISTED + 1)):
            pool = self.random.choice((own, own, own, others, old))
            chosen.append(walk_id(self.random.choice(pool)) if pool else self.random.randbytes(32))
        longest = self.device_info.info.get(7)
        count = longest if isinstance(longest, int) else MAX_LISTED
        return [{"id": identity, "type": KIND} for identity in dict.fromkeys(chosen)][:count]

    def make_auth_param(self, key: int) -> Dict[int, Any]:
        """Returns pinUvAuthParam under this key, and the protocol under the next: by the last token, by the token
        before it, or truncated."""
        kind = self.random.choice((b"=token:", b"=token:", b"=token:", b"=former:", b"=cut:"))
        length = self.random.choice((1, 4, 8, 15, 16 if self.protocol == 2 else 12))
        word = kind + (b"%d:" % length if kind == b"=cut:" else b"")
        return {key: word + (b"1" if key == 8 else b"2"), key + 1: self.protocol}

    def registration_request(self, rp: str, more: Dict[int, Any]) -> bytes:
        """Returns a registration."""
        user = self.random.choice(USERS)
        asked: Dict[int, Any] = {
            1: self.random.randbytes(32),
            2: {"id": rp, "name": "A service"},
            3: {"id": user, "name": "alice", "displayName": "Alice"},
            4: [{"alg": alg, "type": KIND} for alg in self.device_info.algorithms or [-7]],
            **more,
        }
        if self.device_info.options.get("rk") and self.happens(0.6):
            asked[7] = {"rk": True}
            # `count_credential` increments `made` later.
            self.users[self.made + 1] = user
            self.rps[self.made + 1] = rp
        return MAKE + encode(asked)

    def count_credential(self, rp: str) -> str:
        """Counts a new credential; returns the words of the expectation that name it."""
        self.made += 1
        self.rps[self.made] = rp
        self.present.append(self.made)
        return f" as {walk_id(self.made).hex()}"

    def make(self) -> Block:
        """Registers."""
        rp, more = self.random.choice(RPS), {}
        listed = self.choose_list(rp)
        if listed is not None and self.happens(0.6):
            more[5] = listed
        if self.secrets.pin and self.happens(0.8):
            return self.use_new_token(rp, MAKES, lambda block: self.add_make(block, rp, more))
        return self.add_make(self.new_block(), rp, more)

    def add_make(self, block: Block, rp: str, more: Dict[int, Any]) -> Block:
        """Adds a registration, with pinUvAuthParam if a PIN is set."""
        param = self.make_auth_param(8) if self.secrets.pin and self.happens(0.9) else {}
        return block.ask(self.registration_request(rp, {**more, **param}), self.count_credential(rp))

    def get(self) -> Block:
        """Signs in."""
        rp = self.random.choice(RPS)
        if self.secrets.pin and self.happens(0.4):
            return self.use_new_token(rp, GETS, lambda block: self.add_get(block, rp))
        return self.add_get(self.new_block(), rp)

    def add_get(self, block: Block, rp: str, silent: float = 0.2) -> Block:
        """Adds a sign-in; `silent` is the probability of the option up false."""
        asked: Dict[int, Any] = {1: rp, 2: self.random.randbytes(32)}
        listed = self.choose_list(rp)
        if listed is not None:
            asked[3] = listed
        if self.happens(silent):
            asked[5] = {"up": False}
        if self.secrets.pin and self.happens(0.5 if silent < 0.5 else 0.9):
            asked.update(self.make_auth_param(6))
        return block.ask(GET + encode(asked))

    # PINs and tokens.

    def pin_request(self, command: int, **members: Any) -> bytes:
        """Returns a request of authenticatorClientPIN; the arguments p3, p4 .. are its members 3, 4 .."""
        more = {int(name[1:]): value for name, value in members.items()}
        return PIN + encode({1: self.protocol, 2: command, **more})

    def get_agreement_key(self, block: Block) -> Block:
        """Gets the key agreement key."""
        return block.ask(self.pin_request(GET_AGREEMENT))

    def choose_pin(self) -> bytes:
        """Returns a PIN to use: mostly the right one; else the former PIN, a colliding PIN, or another wrong one."""
        pin = self.secrets.pin
        if not pin:
            return b"1234567"
        if self.happens(0.75 if self.secrets.retries > 2 else 0.97):
            return pin
        if self.secrets.former and self.happens(0.3):
            return self.secrets.former
        return make_colliding_pin(pin, self.random) if self.happens(0.6) else pin[::-1] + b"0"

    def ask_token(self, block: Block, pin: bytes, permissions: int, rp: str) -> Block:
        """Adds a request for a token."""
        hashed = b"=hash:" + pin
        if not self.device_info.options.get("pinUvAuthToken") or self.happens(0.1):
            return self.get_agreement_key(block).ask(self.pin_request(GET_TOKEN, p3=b"=agreement", p6=hashed))
        members = {"p3": b"=agreement", "p6": hashed, "p9": permissions, "p10": rp}
        return self.get_agreement_key(block).ask(self.pin_request(NEW_TOKEN, **members))

    def use_new_token(self, rp: str, permissions: int, add: Callable[[Block], Block]) -> Block:
        """Gets a token for an RP with the right PIN, and uses it."""
        return add(self.ask_token(self.new_block(), self.secrets.pin or b"", permissions, rp))

    def get_token(self) -> Block:
        """Gets a token."""
        permissions = self.random.choice((MAKES, GETS, MAKES | GETS))
        return self.ask_token(self.new_block(), self.choose_pin(), permissions, self.random.choice(RPS))

    def use_token_twice(self) -> Block:
        """Uses a token twice, perhaps after a change of the PIN."""
        rp, pin = self.random.choice(RPS), self.secrets.pin
        block = self.ask_token(self.new_block(), pin or b"", MAKES | GETS, rp)
        if pin and self.happens(0.3):
            self.change_pin(block, pin, pin[::-1])
        for silent in (0.6, 0.2):
            self.add_make(block, rp, {}) if self.happens(0.5) else self.add_get(block, rp, silent)
        return block

    def ask_retries(self) -> Block:
        """Asks for the PIN retries."""
        return self.new_block().ask(self.pin_request(GET_RETRIES))

    def try_wrong_pin(self) -> Block:
        """Tries a wrong PIN, and asks for the retries, perhaps also after a power cycle."""
        pin = self.secrets.pin
        if not pin or self.secrets.retries < MAX_RETRIES - 4:
            return self.get_token()
        block = self.ask_token(self.new_block(), make_colliding_pin(pin, self.random), MAKES, RPS[0])
        if self.happens(0.5):
            block.ask(self.pin_request(GET_RETRIES)).tick().power_cycle()
            block.channel = 1
            block.greet_hosts().ask(INFO)
        return block.ask(self.pin_request(GET_RETRIES))

    def block_pin(self) -> Block:
        """Tries wrong PINs until the PIN is blocked. Only a reset unblocks it, not a power cycle or the right PIN."""
        pin = self.secrets.pin
        if not pin or not self.happens(0.5):
            return self.ask_retries()
        block = self.power_cycle()
        for number in range(self.secrets.retries):
            self.ask_token(block, make_colliding_pin(pin, self.random), MAKES, RPS[0])
            if number % 3 == 2:
                block.tick().power_cycle()
                block.greet_hosts()
        block.tick().power_cycle()
        block.greet_hosts().ask(self.pin_request(GET_RETRIES))
        return self.ask_token(block, pin, MAKES, RPS[0])

    def new_pin(self) -> bytes:
        """Returns a PIN of digits."""
        length = max(PIN_LENGTH, self.device_info.min_pin_length)
        return b"".join(b"%d" % self.random.randrange(10) for _ in range(length))

    def set_or_change(self) -> Block:
        """Sets a PIN, or changes it with the right or a wrong one."""
        block, pin = self.new_block(), self.secrets.pin
        if pin and self.happens(0.9):
            return self.change_pin(block, self.choose_pin(), self.new_pin())
        padded = b"=encrypt:" + self.new_pin().ljust(PADDED_PIN, b"\0")
        self.get_agreement_key(block).ask(self.pin_request(SET_PIN, p3=b"=agreement", p4=b"=auth:5", p5=padded))
        return block.ask(self.pin_request(GET_RETRIES))

    def change_pin(self, block: Block, old: bytes, new: bytes) -> Block:
        """Adds a change of the PIN."""
        members = {"p4": b"=auth:5+6", "p5": b"=encrypt:" + new.ljust(PADDED_PIN, b"\0"), "p6": b"=hash:" + old}
        return self.get_agreement_key(block).ask(self.pin_request(CHANGE_PIN, p3=b"=agreement", **members))
