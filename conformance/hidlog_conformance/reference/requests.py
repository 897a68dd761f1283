"""Parses requests for the reference authenticator; requests in progress, and pending assertions."""

from __future__ import annotations

from typing import Any, Dict, List, Optional, Tuple

from hidlog_conformance import ctap_cbor
from hidlog_conformance.reference.credential import Credential
from hidlog_conformance.reference.pin import MISSING, RequestError
from hidlog_conformance.reference.traits import DeviceTraits

INVALID_LENGTH, UNEXPECTED_TYPE = 0x03, 0x11
Types = Dict[int, Tuple[type, bool]]
# The parameters of each command: type, and whether required.
MAKE: Types = {
    1: (bytes, True),
    2: (dict, True),
    3: (dict, True),
    4: (list, True),
    5: (list, False),
    6: (dict, False),
    7: (dict, False),
    8: (bytes, False),
    9: (int, False),
    10: (int, False),
}
GET: Types = {
    1: (str, True),
    2: (bytes, True),
    3: (list, False),
    4: (dict, False),
    5: (dict, False),
    6: (bytes, False),
    7: (int, False),
}
PIN: Types = {
    1: (int, False),
    2: (int, False),
    3: (dict, False),
    4: (bytes, False),
    5: (bytes, False),
    6: (bytes, False),
}
PIN.update({9: (int, False), 10: (str, False)})
MANAGE: Types = {1: (int, False), 2: (dict, False), 3: (int, False), 4: (bytes, False)}
BLOBS: Types = {1: (int, False), 2: (bytes, False), 3: (int, False), 4: (int, False)}
BLOBS.update({5: (bytes, False), 6: (int, False)})

ENROLLMENT: Types = {1: (int, False), 2: (int, False), 3: (dict, False), 4: (int, False), 5: (bytes, False)}
ENROLLMENT.update({6: (bool, False)})


class ActiveRequest:
    """A request in progress, and whether the user was present and verified."""

    def __init__(self, at: int, channel: int, item: Dict[Any, Any], options: Dict[str, Any]) -> None:
        self.at = at
        self.channel = channel
        self.item = item
        self.options = options
        self.present = False
        self.verified = False


class Pending:
    """The pending assertions for authenticatorGetNextAssertion."""

    def __init__(self, asked: ActiveRequest, left: List[Credential], at: int) -> None:
        self.asked = asked
        self.left = left
        self.at = at


class LooseReader(ctap_cbor.Reader):
    """Decodes well-formed CBOR that may not be canonical."""

    def read_head(self) -> Tuple[int, int, int]:
        """Returns an item's head, which may be too long."""
        return self.read_any_head()

    def read(self, level: int = 1) -> Any:
        """Returns the next item; for a tag its content, for a float None."""
        start = self.place
        major, _, _ = self.read_head()
        if major == 6:
            return self.read(level)
        if major == 7 and self.data[start] & 31 > 22:
            return None
        self.place = start
        return super().read(level)

    def text(self, start: int, length: int) -> str:
        """Returns a text string, with invalid UTF-8 replaced."""
        return self.take(length).decode("utf-8", "replace")

    def map(self, count: int, level: int) -> Dict[Any, Any]:
        """Returns a map with its keys in any order; of duplicate keys the last one counts."""
        found: Dict[Any, Any] = {}
        for _ in range(count):
            key = self.read(level + 1)
            value = self.read(level + 1)
            if isinstance(key, (list, dict)):
                raise ctap_cbor.CborError("a key that is an array or a map")
            found[key] = value
        return found


class Requests:
    """Decodes and checks parameters."""

    def __init__(self, traits: DeviceTraits) -> None:
        self.traits = traits

    def decode(self, data: bytes) -> Any:
        """Returns the item of a request."""
        try:
            if self.traits.takes_all_cbor:
                return LooseReader(data).read()
            return ctap_cbor.decode(data)
        except (ctap_cbor.CborError, RecursionError, MemoryError):
            raise RequestError(self.traits.malformed) from None

    def read(self, data: bytes, types: Types) -> Dict[Any, Any]:
        """Returns the parameters, with their types checked; ignores unknown ones."""
        item = self.decode(data)
        if not isinstance(item, dict):
            raise RequestError(self.traits.wrong_type)
        for key, (kind, _) in types.items():
            if key in item:
                self.check_type(item[key], kind)
        self.check_members(item, types)
        if any(needed and key not in item for key, (_, needed) in types.items()):
            raise RequestError(MISSING)
        return item

    def check_type(self, value: Any, kind: type) -> Any:
        """Returns a value of a type, or refuses the request."""
        if not isinstance(value, kind) or kind is int and isinstance(value, bool):
            raise RequestError(self.traits.wrong_type)
        return value

    def check_members(self, item: Dict[Any, Any], types: Types) -> None:
        """Checks the members of parameters that are maps: first their types, then that required members are present."""
        entities: List[Tuple[int, Dict[str, type], Tuple[str, ...]]] = []
        lists: List[Tuple[int, Dict[str, type], Tuple[str, ...]]] = []
        descriptor: Dict[str, type] = {"id": bytes, "type": str, "transports": list}
        if types is MAKE:
            names: Dict[str, type] = {"name": str, "displayName": str}
            entities = [(2, {"id": str, "name": str}, ("id",)), (3, {"id": bytes, **names}, ("id",))]
            entities.append((7, {"rk": bool, "up": bool, "uv": bool}, ()))
            lists = [(4, {"alg": int, "type": str}, ("alg", "type")), (5, descriptor, ("id", "type"))]
        elif types is GET:
            entities = [(5, {"rk": bool, "up": bool, "uv": bool}, ())]
            lists = [(3, descriptor, ("id", "type"))]
        missing = False
        for key, kinds, needed in entities:
            missing = self.check_entity(item.get(key), kinds, needed) or missing
        for key, kinds, needed in lists:
            for entry in item.get(key, []):
                missing = self.check_entity(self.check_type(entry, dict), kinds, needed) or missing
        if missing:
            raise RequestError(MISSING)

    def check_entity(self, value: Optional[Dict[Any, Any]], kinds: Dict[str, type], needed: Tuple[str, ...]) -> bool:
        """Checks the types of a map's members; returns whether a required one is missing."""
        if value is None:
            return False
        for name, kind in kinds.items():
            if name in value:
                self.check_type(value[name], kind)
        for transport in value.get("transports", []):
            self.check_type(transport, str)
        return any(name not in value for name in needed)
