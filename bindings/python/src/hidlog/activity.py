"""Describes how pages used a key, for the report of a failed test: created credentials, signed assertions, refused
calls with the reasons, and injected faults."""

from __future__ import annotations

import re
from collections import Counter, deque
from collections.abc import Callable, Mapping
from typing import TYPE_CHECKING, Any, NamedTuple, Union

from .errors import describe
from .standard import STATUS_NAMES
from .webauthn_errors import AbortError, WebAuthnError
from .webauthn_json import b64url_decode, b64url_encode

if TYPE_CHECKING:
    from .key import SecurityKey

Json = dict[str, Any]
# Maximum number of events, and of effects of faults between two events. The latest ones are kept.
_MAX_EVENTS = 40
_SUCCESS_TEXTS = {"create": "created a credential", "get": "signed an assertion"}
_REFUSAL_TEXTS = {"create": "create a credential", "get": "sign an assertion"}
_UV = 0x04
_FLAGS = {_UV: "user verified", 0x08: "backup eligible", 0x10: "backed up"}
# The paths of the options that the report shows for a call.
_OPTIONS = {
    "create": ["rp.id", "user.id", "authenticatorSelection.residentKey", "authenticatorSelection.requireResidentKey"],
    "get": ["rpId", "userVerification", "timeout", "challenge", "allowCredentials"],
}
_OPTIONS["create"] += ["authenticatorSelection.userVerification", "authenticatorSelection.authenticatorAttachment"]
_OPTIONS["create"] += ["attestation", "timeout", "challenge", "excludeCredentials"]
# Options that are left out if the page did not pass them.
_OMITTED_IF_ABSENT = ("requireResidentKey", "authenticatorAttachment", "attestation", "timeout")
# Options that are base64url strings. The report has only their first letters, as for credential IDs.
_BASE64URL_OPTIONS = ("user.id", "challenge")
_LIST_OPTIONS = ("excludeCredentials", "allowCredentials")
_SHOWN_LETTERS = 8
_MAX_SHOWN = 80
_ABSENT = object()
# The status of a request that the browser cancelled, CTAP2_ERR_KEEPALIVE_CANCEL.
_CANCELLED = 0x2D
# Totals of `hidlog show --summary` that are 0.
_ZERO_LINE = re.compile(r"^[a-zA-Z ]+: 0\n?", re.MULTILINE)


class _Call(NamedTuple):
    """A call of a page. `result` is the credential or the exception, and `effects` are the faults that took effect."""

    ceremony: str
    origin: str
    options: Any
    result: Any
    effects: tuple[str, ...]

    @property
    def public_key(self) -> Any:
        """The options, or their member publicKey."""
        return self.options.get("publicKey", self.options) if isinstance(self.options, Mapping) else {}

    @property
    def user_name(self) -> str:
        """The user name of the options, or ""."""
        return _get_text_option(self.public_key, "user.name")

    @property
    def created_id(self) -> str:
        """The ID of the credential that the call created, or ""."""
        return str(self.result["id"]) if self.ceremony == "create" and isinstance(self.result, Mapping) else ""


# A call, or the effects of faults on requests outside of calls.
_Event = Union[_Call, list[str]]


def drop_zeros(summary: str) -> str:
    """Returns a summary of `hidlog show` without totals that are 0."""
    return _ZERO_LINE.sub("", summary).rstrip("\n")


def _get_option(options: Any, path: str) -> Any:
    """Returns an option, or _ABSENT. The path has the names of the members, with dots."""
    for name in path.split("."):
        options = options.get(name, _ABSENT) if isinstance(options, Mapping) else _ABSENT
    return options


def _get_text_option(options: Any, path: str) -> str:
    """Returns an option that is a text, or ""."""
    value = _get_option(options, path)
    return value if isinstance(value, str) else ""


class _Report:
    """A context in which a page makes one call. The call is formatted only if a test fails."""

    __slots__ = ("_activity", "_call")

    def __init__(self, activity: Activity, call: tuple[str, str, Any]):
        self._activity, self._call = activity, call

    def __enter__(self) -> Callable[[Json], Json]:
        self._activity.begin_call()
        return self._add

    def _add(self, made: Json) -> Json:
        self._activity.end_call(*self._call, made)
        return made

    def __exit__(self, kind: object, error: BaseException | None, _: object) -> None:
        if error is not None:
            self._activity.end_call(*self._call, error)


class Activity:
    """The last calls of a key's browsers, each with the result: a credential or an error."""

    __slots__ = ("_events", "_effects")

    def __init__(self) -> None:
        self._events: deque[_Event] = deque(maxlen=_MAX_EVENTS)
        self._effects: deque[str] = deque(maxlen=_MAX_EVENTS)

    def reporting(self, ceremony: str, origin: str, options: Any) -> _Report:
        """Returns a context for a call. The context provides a function that reports the resulting credential."""
        return _Report(self, (ceremony, origin, options))

    def add_effect(self, text: str) -> None:
        """Adds what a fault changed in a response."""
        self._effects.append(text)

    def begin_call(self) -> None:
        """Separates the effects of faults before a call from those of the call."""
        if self._effects:
            self._events.append(list(self._effects))
            self._effects.clear()

    def end_call(self, ceremony: str, origin: str, options: Any, result: Any) -> None:
        """Adds a call with its result."""
        self._events.append(_Call(ceremony, origin, options, result, tuple(self._effects)))
        self._effects.clear()

    def describe(self, key: SecurityKey) -> str:
        """Returns the calls, and the faults that took effect or are enabled, one per line. Empty if there are none."""
        calls = [event for event in self._events if isinstance(event, _Call)]
        names = {call.created_id: call.user_name for call in calls}
        kinds: dict[str, str] = {}
        # A key in a separate process without a recording can't list its credentials, and a plain client has no calls.
        if calls and key.log:
            kinds = _explain_missing(calls)
            for credential in key.credentials:
                id_text = b64url_encode(credential.id)
                names[id_text] = credential.user_name
                kinds[id_text] = "discoverable" if credential.discoverable else "not discoverable"
        lines = []
        for event in (*self._events, list(self._effects)):
            if isinstance(event, _Call):
                lines += _format_call(event, names, kinds)
            else:
                lines += _format_effects(event)
        lines += [_format_enabled(name, value) for name, value in key.faults.active.items()]
        return "\n".join(lines)


def _get_account(call: _Call) -> tuple[bytes, str] | None:
    """Returns the RP ID hash and the user ID of a new credential that is discoverable, otherwise None."""
    selection = _get_option(call.public_key, "authenticatorSelection")
    kind = _get_text_option(selection, "residentKey") or (
        _get_option(selection, "requireResidentKey") is True and "required"
    )
    if kind not in ("required", "preferred"):
        return None
    data = b64url_decode(call.result["response"]["authenticatorData"])
    return data[:32], _get_text_option(call.public_key, "user.id")


def _explain_missing(calls: list[_Call]) -> dict[str, str]:
    """Returns a text for each created credential, by ID, for use if the key no longer has the credential."""
    found, later = {}, set()
    for call in reversed(calls):
        if call.created_id:
            account = _get_account(call)
            is_replaced = account is not None and account in later
            why = " (replaced by a later credential for the same user ID)" if is_replaced else ""
            found[call.created_id] = f"no longer on the key{why}"
            later.add(account)
    return found


def _shorten(text: str) -> str:
    """Returns the first letters of a base64url string."""
    return text if len(text) <= _SHOWN_LETTERS else f"{text[:_SHOWN_LETTERS]}.."


def _format_value(path: str, value: Any, options: Any) -> str:
    """Returns the value of an option."""
    if value is _ABSENT:
        # The defaults of WebAuthn Level 3, sections 5.4.4 and 5.5.
        if path.endswith("residentKey"):
            is_required = _get_option(options, "authenticatorSelection.requireResidentKey") is True
            return f"absent ({'required' if is_required else 'discouraged'})"
        return "absent (preferred)" if path.endswith("userVerification") else "absent"
    if path in _LIST_OPTIONS and isinstance(value, (list, tuple)):
        return " ".join(_shorten(_get_text_option(item, "id")) or describe(item) for item in value) or "empty"
    if not isinstance(value, str) or not value.isprintable() or len(value) > _MAX_SHOWN:
        return describe(value)
    return _shorten(value) if path in _BASE64URL_OPTIONS else value or "empty"


def _format_options(call: _Call) -> str:
    """Returns the options that the report shows for a call, as the page passed them."""
    found = []
    for path in _OPTIONS[call.ceremony]:
        value, name = _get_option(call.public_key, path), path.replace("authenticatorSelection.", "")
        if value is not _ABSENT or name not in _OMITTED_IF_ABSENT:
            found.append(f"{name} {_format_value(path, value, call.public_key)}")
    return ", ".join(found)


def _format_details(ceremony: str, result: Mapping[str, Any], kinds: Mapping[str, str]) -> str:
    """Returns what a service sees of a credential: flags, counter, user handle, and the beginning of the ID.

    `kinds` has "discoverable", "not discoverable" or "no longer on the key" for each credential, by ID.
    """
    data = b64url_decode(result["response"]["authenticatorData"])
    found = [] if data[32] & _UV else ["user not verified"]
    found += [name for bit, name in _FLAGS.items() if data[32] & bit]
    found.append(f"counter {int.from_bytes(data[33:37], 'big')}")
    if ceremony == "get":
        handle = result["response"].get("userHandle")
        found.append(f"user handle {_shorten(handle)}" if handle else "no user handle")
    elif kinds:
        found.append(kinds[result["id"]])
    return ", ".join([*found, f"credential {_shorten(result['id'])}"])


def _format_refusal(error: BaseException) -> str:
    """Returns who refused a call, or "failed" if the error is not that of a browser."""
    if isinstance(error, AbortError) or not isinstance(error, WebAuthnError):
        return "failed"
    is_of_key = error.status not in (None, _CANCELLED)
    return "the key refused" if is_of_key else "the browser refused"


def _format_call(call: _Call, names: Mapping[str, str], kinds: Mapping[str, str]) -> list[str]:
    """Describes a call in lines: the result, the options, and the faults that took effect."""
    ceremony, result, user = call.ceremony, call.result, call.user_name
    if isinstance(result, Mapping):
        who = user or names.get(result["id"]) or "a user without a name"
        line = f"{_SUCCESS_TEXTS[ceremony]} for {who} at {call.origin}: {_format_details(ceremony, result, kinds)}"
    else:
        what = f"{_format_refusal(result)} to {_REFUSAL_TEXTS[ceremony]}" + (f" for {user}" if user else "")
        line = f"{what} at {call.origin}: {getattr(result, 'name', type(result).__name__)}: {result}"
    effects = [f"    {text}" for text in _format_effects(call.effects)]
    return [line, f"    options: {_format_options(call)}", *effects]


def _format_effects(effects: list[str] | tuple[str, ...]) -> list[str]:
    """Describes the changes that injected faults made, one per line."""
    return [f"fault: {text}" + (f" ({count} times)" if count > 1 else "") for text, count in Counter(effects).items()]


def _format_enabled(name: str, value: Any) -> str:
    """Describes a fault that is enabled."""
    if name == "status":
        value = f"0x{value:02X} {STATUS_NAMES.get(value, '')}".rstrip()
    return f"fault {name} is enabled" + ("" if value is True else f": {value}")
