"""A simulated browser at an origin. A call gets a service's options, and returns a credential, both as the JSON of
WebAuthn Level 3.

The C library's WebAuthn client (webauthn_client.py) checks options, origins and RP IDs as Chromium does. Errors are
those of the DOM (webauthn_errors.py).
"""

from __future__ import annotations

import asyncio
import queue
import threading
import time
from collections.abc import Callable, Mapping
from typing import TYPE_CHECKING, Any, NamedTuple, Optional, Protocol, Union

from . import cbor, signals
from .client import Client
from .credentials import Credential
from .core_additions import CoreAdditions, adapt_options
from .errors import CtapError, InvalidChannelError, KeyTimeoutError, describe, get_renamed
from .key_extensions import drop_list_inputs, is_usable, read_inputs
from .packets import CBOR, GET_NEXT_ASSERTION
from .private_keys import public_point
from .relying_party import parse_origin
from .webauthn_client import ClientCall, Request
from .webauthn_errors import (
    AbortError,
    EncodingError,
    NotAllowedError,
    WebAuthnError,
    WebAuthnRangeError,
    WebAuthnTypeError,
)
from .webauthn_json import b64url_decode, b64url_encode

if TYPE_CHECKING:
    from .key import SecurityKey

# In the traceback of a failed test, pytest hides this module's functions unless called with --full-trace.
__tracebackhide__ = True
Json = dict[str, Any]
# The account that signs in: an index in the list of accounts, a user name, a credential ID, or a function of the list.
Account = Union[int, str, bytes, Callable[[list[Credential]], Any]]
_GET_NEXT_REQUEST = bytes([GET_NEXT_ASSERTION])
_DESCRIPTOR_LISTS = ("allowCredentials", "excludeCredentials")
# Length of an ID of 64 bytes in base64url. In requests to the core, longer IDs are replaced by their hashes.
_MAX_SENT_LETTERS = 86
# The status and the first byte of a CBOR map with five members.
_SUCCESS_WITH_FIVE_MEMBERS = b"\x00\xa5"
# The end of a request for a discoverable credential: the key 7 with the value {"rk": true}.
_DISCOVERABLE_END = bytes.fromhex("07a162726bf5")


class Signal(Protocol):
    """Something that cancels a call, such as a threading.Event."""

    def is_set(self) -> bool:
        """Returns whether the call is cancelled."""


class _PendingCall(NamedTuple):
    """A call with valid options, the request to the key, and the features outside the core, if any."""

    call: ClientCall
    request: Request
    additions: Optional[CoreAdditions]


class Browser:
    """A browser with the key as its only authenticator."""

    def __init__(self, key: SecurityKey, origin: str):
        self.origin = parse_origin(origin)
        self._key = key
        self._client: Client | None = None
        self._choices: queue.Queue[Account] = queue.Queue()

    def __repr__(self) -> str:
        return f"Browser({self.origin!r})"

    def create(self, options: Mapping[str, Any], *, mediation: str = "optional", signal: Signal | None = None) -> Json:
        """Registers, as navigator.credentials.create does. The signal cancels the call, as an AbortSignal does."""
        with self._key.activity.reporting("create", self.origin, options) as report, self._key.ceremony():
            started = self._begin("create", options, mediation, signal)
            ending = _Cancellation(self._key, signal, started.request.timeout_ms)
            made = started.call.response(self._exchange(started, started.request.message, ending))
            return report(self._complete(started, made))

    def get(
        self,
        options: Mapping[str, Any],
        account: Account = 0,
        *,
        mediation: str = "optional",
        signal: Signal | None = None,
    ) -> Json:
        """Signs in, as navigator.credentials.get does.

        account     the account to use if there are several: an index, newest first; a user name; a credential ID; or a
                    function that returns one of the credentials.
        mediation   "conditional" waits until `select_account` is called.
        """
        _check_account(account)
        is_conditional = mediation == "conditional"
        # Conditional mediation ignores the options' timeout (WebAuthn Level 3, section 5.1.4.2).
        wanted = _drop_timeout(options) if is_conditional else options
        with self._key.activity.reporting("get", self.origin, options) as report:
            started = self._begin("get", wanted, mediation, signal)
            if is_conditional:
                started = self._select_conditionally(started, wanted, account, signal)
            else:
                started = self._without_protected(started, wanted, signal)
            with self._key.ceremony():
                ending = _Cancellation(self._key, signal, started.request.timeout_ms)
                used = self._pick_assertion(self._iter_assertions(started, ending), account)
                return report(self._complete(started, used))

    async def acreate(
        self, options: Mapping[str, Any], *, mediation: str = "optional", signal: Signal | None = None
    ) -> Json:
        """Registers as `create` does, in another thread. Cancelling the task cancels the registration."""
        return await _run_in_thread(signal, lambda either: self.create(options, mediation=mediation, signal=either))

    async def aget(
        self,
        options: Mapping[str, Any],
        account: Account = 0,
        *,
        mediation: str = "optional",
        signal: Signal | None = None,
    ) -> Json:
        """Signs in as `get` does, in another thread. Cancelling the task cancels the sign-in."""
        return await _run_in_thread(
            signal, lambda either: self.get(options, account, mediation=mediation, signal=either)
        )

    def signal_unknown_credential(self, options: Mapping[str, Any]) -> None:
        """Removes a credential that the service does not know, as PublicKeyCredential.signalUnknownCredential does."""
        signals.signal_unknown_credential(self._key, self.origin, options)

    def signal_all_accepted_credentials(self, options: Mapping[str, Any]) -> None:
        """Removes the user's other discoverable credentials, as PublicKeyCredential.signalAllAcceptedCredentials
        does."""
        signals.signal_all_accepted_credentials(self._key, self.origin, options)

    def signal_current_user_details(self, options: Mapping[str, Any]) -> None:
        """Renames the user, as PublicKeyCredential.signalCurrentUserDetails does. Display names are not stored."""
        signals.signal_current_user_details(self._key, self.origin, options)

    def select_account(self, account: Account = 0) -> None:
        """Selects the account for the pending sign-in with mediation "conditional", or for the next one."""
        _check_account(account)
        self._choices.put(account)

    if not TYPE_CHECKING:

        def __getattr__(self, name: str) -> Any:
            return get_renamed(self, name, {"choose": "select_account"})

    # Requests to the key.

    def _begin(
        self, ceremony: str, options: Any, mediation: object, signal: Signal | None, is_narrowed: bool = False
    ) -> _PendingCall:
        """Checks a call's options, and builds the request. Type errors are reported before a signal that is already
        set.

        `is_narrowed`: allowCredentials has only some of the page's credentials, whose list was checked before.
        """
        inner = _get_public_key(options)
        departs = not self._key.is_plain and isinstance(inner, Mapping)
        given = {"publicKey": adapt_options(ceremony, dict(inner), self._key)} if departs else options
        if is_narrowed and inner.get("extensions"):
            left = drop_list_inputs(read_inputs(inner))
            given = {"publicKey": {**_get_public_key(given), "extensions": left}}
        call = ClientCall(ceremony, self._with_core_ids(given), mediation, self.origin, self._key.authenticator_options)
        try:
            request = call.request()
        except (WebAuthnTypeError, EncodingError):
            raise
        except WebAuthnError:
            _check_signal(signal)
            raise
        _check_signal(signal)
        if not departs:
            return _PendingCall(call, request, None)
        is_discoverable = request.message.endswith(_DISCOVERABLE_END)
        additions = CoreAdditions(self._key, self._key._metadata, ceremony, dict(inner), is_discoverable)
        return _PendingCall(call, request, additions)

    def _complete(self, started: _PendingCall, made: Json) -> Json:
        """Returns a credential's JSON, completed with the features outside the core."""
        if started.additions is not None:
            core_id = self._key.core_id(b64url_decode(made["id"]))
            started.additions.adapt(made, core_id, b"".join(public_point(self._key.private_keys[core_id])))
        return made

    def _without_protected(self, started: _PendingCall, options: Any, signal: Signal | None) -> _PendingCall:
        """Returns a sign-in without the credentials that their protection policies (credProtect) exclude."""
        if not self._key._metadata.extensions or started.request.is_verified:
            return started
        members = cbor.decode(started.request.message[1:])
        is_listed = 3 in members
        listed = (
            [one["id"] for one in members[3]]
            if is_listed
            else [self._key.core_id(credential.id) for credential in self._list_accounts(started)]
        )
        kept = self._key._metadata.extensions
        left = [core_id for core_id in listed if is_usable(kept.get(core_id, {}), False, is_listed)]
        if len(left) == len(listed):
            return started
        if not left:
            needed = "user verification" if is_listed else "user verification, or its ID in allowCredentials"
            raise NotAllowedError(f"each credential's protection policy (credProtect) requires {needed}")
        return self._begin_with(options, left, signal)

    def _begin_with(self, options: Any, core_ids: list[bytes], signal: Signal | None) -> _PendingCall:
        """Returns a call that allows only these credentials."""
        pages = [self._key.page_id(core_id) for core_id in core_ids]
        descriptors = [{"type": "public-key", "id": b64url_encode(page)} for page in pages]
        inner = {**_get_public_key(options), "allowCredentials": descriptors}
        return self._begin("get", {"publicKey": inner}, "optional", signal, is_narrowed=True)

    def _with_core_ids(self, options: Any) -> Any:
        """Returns the options with the core's credential IDs."""
        inner = _get_public_key(options)
        if not isinstance(inner, Mapping):
            return options
        changed: Json = {}
        for name in _DESCRIPTOR_LISTS:
            listed = inner.get(name)
            if isinstance(listed, (list, tuple)):
                named = [self._with_core_id(descriptor) for descriptor in listed]
                if any(one is not other for one, other in zip(named, listed)):
                    changed[name] = named
        prf = read_inputs(inner).get("prf") if changed else None
        if isinstance(prf, Mapping) and isinstance(prf.get("evalByCredential"), Mapping):
            values = {self._to_core_id(page_id): value for page_id, value in prf["evalByCredential"].items()}
            changed["extensions"] = {**inner["extensions"], "prf": {**prf, "evalByCredential": values}}
        return {"publicKey": {**inner, **changed}} if changed else options

    def _with_core_id(self, descriptor: Any) -> Any:
        """Returns a credential descriptor with the core's ID."""
        page_id = descriptor.get("id") if isinstance(descriptor, Mapping) else None
        core_id = self._to_core_id(page_id)
        return descriptor if core_id == page_id else {**descriptor, "id": core_id}

    def _to_core_id(self, page_id: Any) -> Any:
        """Returns the core's ID of a page's credential, both as base64url. Other values are returned unchanged."""
        if not isinstance(page_id, str) or not (self._key.has_page_ids or len(page_id) > _MAX_SENT_LETTERS):
            return page_id
        try:
            data = b64url_decode(page_id)
        except ValueError:
            return page_id
        core_id = self._key.core_id(data)
        return page_id if core_id == data else b64url_encode(core_id)

    def _exchange(self, started: _PendingCall, message: bytes, ending: _Cancellation) -> bytes:
        """Sends a request, and returns the response. A status other than 0 raises the DOM's error."""
        try:
            with self._key.applying_additions(started.additions, started.request.is_verified):
                response = self._transact(message, ending)
        except InvalidChannelError:
            raise
        except (KeyTimeoutError, CtapError) as error:
            raise ending.to_page_error(error, started.call) from error
        if response[:1] != b"\0":
            status = response[0] if response else 0x7F
            refused = CtapError(status, self._key.cause(status))
            raise ending.to_page_error(refused, started.call) from refused
        return response

    def _transact(self, message: bytes, ending: _Cancellation) -> bytes:
        """Sends a request on the browser's channel, or on a new one if the key no longer knows it."""
        if self._client is None:
            self._client = Client(self._key)
        try:
            return self._serve(self._client, message, ending)
        except InvalidChannelError:
            self._client = Client(self._key)
            return self._serve(self._client, message, ending)

    def _serve(self, client: Client, message: bytes, ending: _Cancellation) -> bytes:
        """Lets the key serve a request: directly if possible, otherwise packet by packet."""
        response = None if ending.is_over() else self._key.serve(client.channel, message, ending.limit)
        return client.transact(CBOR, message, ending.is_over) if response is None else response

    def _iter_assertions(self, started: _PendingCall, ending: _Cancellation) -> list[Json]:
        """Returns the assertion of each account."""
        first = self._exchange(started, started.request.message, ending)
        others = range(_read_number_of_credentials(first) - 1)
        responses = [first, *[self._exchange(started, _GET_NEXT_REQUEST, ending) for _ in others]]
        return [self._with_page_id(started.call.response(response)) for response in responses]

    def _with_page_id(self, assertion: Json) -> Json:
        """Returns an assertion with the credential ID for pages."""
        if self._key.has_page_ids:
            assertion["id"] = assertion["rawId"] = b64url_encode(self._key.page_id(b64url_decode(assertion["id"])))
        return assertion

    def _pick_assertion(self, assertions: list[Json], account: Account) -> Json:
        """Returns the assertion of the selected account."""
        if len(assertions) == 1 and account == 0:
            return assertions[0]
        held = {credential.id: credential for credential in self._key.credentials}
        return assertions[_find_account(account, [held[b64url_decode(assertion["id"])] for assertion in assertions])]

    def _select_conditionally(
        self, started: _PendingCall, options: Any, account: Account, signal: Signal | None
    ) -> _PendingCall:
        """Returns a call that allows only the credential of the selected account. Waits for the selection if needed."""
        is_automatic = self._key.autofill == "automatic"
        selected = account if is_automatic else self._wait_for_choice(signal)
        found = self._list_accounts(started)
        if is_automatic and not found:
            raise NotAllowedError("no discoverable credential can sign in")
        chosen = found[_find_account(selected, found)]
        return self._begin_with(options, [self._key.core_id(chosen.id)], signal)

    def _list_accounts(self, started: _PendingCall) -> list[Credential]:
        """Returns the discoverable credentials that can sign in, newest first."""
        members = cbor.decode(started.request.message[1:])
        allowed = [self._key.page_id(descriptor["id"]) for descriptor in members.get(3, [])]
        return [
            credential
            for credential in reversed(self._key.credentials)
            if credential.discoverable
            and credential.belongs_to(members[1])
            and (not allowed or credential.id in allowed)
        ]

    def _wait_for_choice(self, signal: Signal | None) -> Account:
        limit = time.monotonic() + self._key.timeout
        while True:
            try:
                return self._choices.get(timeout=0.02)
            except queue.Empty:
                _check_signal(signal)
                if time.monotonic() > limit:
                    raise NotAllowedError(
                        f"no account was selected within {self._key.timeout} s; call Browser.select_account"
                    ) from None


class _Cancellation:
    """The reasons to cancel a ceremony: the page's signal, and the timeout of the options, measured with the key's
    clock."""

    __slots__ = ("_key", "_signal", "_timeout", "_begun")

    def __init__(self, key: SecurityKey, signal: Signal | None, timeout_ms: int):
        self._key, self._signal, self._timeout = key, signal, timeout_ms
        self._begun = key.time_ms

    @property
    def limit(self) -> int:
        """The timestamp at which the request times out."""
        return self._begun + self._timeout

    def is_over(self) -> bool:
        """Returns whether to cancel the request."""
        return self._is_aborted() or self._is_timed_out()

    def _is_aborted(self) -> bool:
        return self._signal is not None and self._signal.is_set()

    def _is_timed_out(self) -> bool:
        return self._key.time_ms - self._begun >= self._timeout

    def to_page_error(self, error: CtapError | KeyTimeoutError, call: ClientCall) -> WebAuthnError:
        """Returns the error that a page gets."""
        if self._is_aborted():
            return AbortError("the signal cancelled the request")
        if isinstance(error, KeyTimeoutError):
            return NotAllowedError(str(error))
        if error.status == 0x2D and self._is_timed_out():
            return NotAllowedError(f"the user did nothing for {self._timeout} ms, the timeout of the options", 0x2D)
        return call.make_error(error.status, error.cause)


def _get_public_key(options: Any) -> Any:
    """Returns the options, or their member publicKey. Services send both forms."""
    return options.get("publicKey", options) if isinstance(options, Mapping) else options


def _drop_timeout(options: Any) -> Any:
    inner = _get_public_key(options)
    if not isinstance(inner, Mapping) or "timeout" not in inner:
        return options
    return {"publicKey": {name: value for name, value in inner.items() if name != "timeout"}}


def _read_number_of_credentials(response: bytes) -> int:
    """Returns the member numberOfCredentials of an assertion response, or 1 if it is missing."""
    if response[:2] != _SUCCESS_WITH_FIVE_MEMBERS:
        return 1
    try:
        number = cbor.decode(response[1:]).get(5, 1)
    except cbor.CborError:
        return 1  # the C library's WebAuthn client rejects the response
    return number if isinstance(number, int) else 1


def _check_signal(signal: Signal | None) -> None:
    if signal is None:
        return
    if not callable(getattr(signal, "is_set", None)):
        text = f"signal must be a threading.Event or another object with is_set(), not {describe(signal)}"
        raise WebAuthnTypeError(text)
    if signal.is_set():
        raise AbortError("the signal was already set before the request")


def _check_account(account: object) -> None:
    if isinstance(account, bool) or not (isinstance(account, (int, str, bytes)) or callable(account)):
        text = "an index, a user name, a credential ID (bytes), or a function of the credentials"
        raise WebAuthnTypeError(f"account must be {text}, not {describe(account)}")


def _find_account(account: Account, found: list[Credential]) -> int:
    """Returns the index of the selected account."""
    wanted = account(found) if callable(account) else account
    for index, credential in enumerate(found):
        names = (index, credential.user_name, credential.id)
        if wanted is credential or any(type(wanted) is type(name) and wanted == name for name in names):
            return index
    listed = ", ".join(credential.user_name or credential.id.hex() for credential in found) or "none"
    raise WebAuthnRangeError(f"no account {describe(wanted)}; available: {listed}")


class _AnySignal:
    """A signal that is set if at least one of two signals is set."""

    def __init__(self, ended: threading.Event, signal: Optional[Signal]):
        self._ended, self._signal = ended, signal

    def is_set(self) -> bool:
        """Returns whether at least one of the two signals is set."""
        return self._ended.is_set() or (self._signal is not None and self._signal.is_set())


async def _run_in_thread(signal: Signal | None, call: Callable[[Signal], Json]) -> Json:
    """Makes a call in another thread, and cancels it if the task is cancelled."""
    ended = threading.Event()
    both = _AnySignal(ended, signal)
    try:
        return await asyncio.to_thread(call, both)
    finally:
        ended.set()
