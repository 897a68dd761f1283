"""Determines what the user does when the key asks for user presence."""

from __future__ import annotations

from collections.abc import Callable, Iterable, Iterator
from typing import Optional, Union

from . import cbor
from .errors import ArgumentError, HidlogError, PresenceExhaustedError, check_choice, describe
from .packets import GET_ASSERTION, MAKE_CREDENTIAL, RESET, Message

Reply = Optional[str]
# A reply, None if the user does nothing, a function of the question, or a script with a reply for each question.
Presence = Union[Reply, Callable[[str], Reply], Iterable[Reply]]
PRESENCE_WORDS = ("granted", "denied", "timeout")
_EXPECTED = '"granted", "denied", "timeout" or None (the user does nothing)'


def _check_reply(reply: object) -> Reply:
    check_choice("a reply of the user", reply, (*PRESENCE_WORDS, None))
    return reply  # type: ignore[return-value]


class User:
    """Replies to questions according to a presence setting."""

    def __init__(self, presence: Presence):
        self.presence = presence
        self._script: Iterator[Reply] | None = None
        if isinstance(presence, str) or presence is None:
            check_choice("presence", presence, (*PRESENCE_WORDS, None))
        elif isinstance(presence, (list, tuple)):
            for reply in presence:
                _check_reply(reply)
            self._script = iter(presence)
        elif not callable(presence):
            if not isinstance(presence, Iterable) or isinstance(presence, (bytes, bytearray, dict)):
                raise ArgumentError(
                    f"presence must be {_EXPECTED}, a callable, or an iterable of these, not {describe(presence)}"
                )
            self._script = iter(presence)

    def reply(self, request: Message | None) -> Reply:
        """Returns the user's reply to a request."""
        if self._script is not None:
            for reply in self._script:
                return _check_reply(reply)
            raise PresenceExhaustedError(
                f"the presence script is exhausted; the key asks: {presence_question(request)}"
            )
        if callable(self.presence):
            return _check_reply(self.presence(presence_question(request)))
        return self.presence  # type: ignore[return-value]  # checked by __init__


def presence_question(message: Message | None) -> str:
    """Returns the question that a key would ask the user for a request."""
    if message is None or not message.data:
        return "Go on?"
    command = message.data[0]
    try:
        members = cbor.decode(message.data[1:]) if message.data[1:] else {}
        if command == MAKE_CREDENTIAL:
            return f"Register {members[3].get('name', '')} at {members[2]['id']}?"
        if command == GET_ASSERTION:
            return f"Sign in at {members[1]}?"
    except (HidlogError, LookupError, TypeError, AttributeError, ValueError):
        return "Go on?"
    return "Reset the key?" if command == RESET else "Use this key?"
