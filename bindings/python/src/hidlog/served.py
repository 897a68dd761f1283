"""Serves a CBOR request in few library calls. The packets, the user's reply, a new key pair and a signature are each
passed with one call.

The recording is the same, byte for byte, as with a client that writes and reads packets (Client.transact). Not used if
other events may happen in between, with a clock other than "virtual", a presence that is not a string, or a delay
fault.
"""

from __future__ import annotations

import time
from typing import TYPE_CHECKING

from . import packets
from .errors import CtapError, HidlogError, InvalidChannelError, KeyClosedError
from .in_process_key import MAX_LINES, InProcessKey
from .log_lines import Need, Reply, format_line
from .packets import Message
from .standard import KEEPALIVE_MS

if TYPE_CHECKING:
    from .log_lines import Field
    from .session import Session

_INVALID_CHANNEL = 0x0B
_MAX_PACKETS = 16
_NO_NEED = Need()


def serve(session: Session, channel: int, data: bytes, limit: int) -> bytes | None:
    """Serves a request on a channel, and returns the response, or None if a client must write and read packets.

    limit   timestamp at which the client would cancel the request.
    """
    if len(data) > _MAX_PACKETS * packets.PACKET or session._clock != "virtual":
        return None
    with session.exchange(), session._acquire_lock():
        if (
            not _has_only_own_inputs(session)
            or session._time.latest + _max_duration_ms(session.presence_delay_ms) >= limit
        ):
            return None
        request = Message(channel, packets.CBOR, data)
        return _RequestInProgress(session, request).response()


def _has_only_own_inputs(session: Session) -> bool:
    """Returns whether only the request's own inputs can precede its response."""
    return (
        session._is_open
        and isinstance(session._engine, InProcessKey)
        and isinstance(session._user.presence, str)
        and not session.faults.delay
        and session._work.need.kind == "nothing"
        and not session._from_host.is_open
        and not session._from_key.is_open
        and session._packets.is_empty
    )


def _max_duration_ms(presence_delay_ms: int) -> int:
    """Returns an upper bound for the duration of a request, in milliseconds."""
    return presence_delay_ms + 2 * KEEPALIVE_MS + _MAX_PACKETS + 10 + presence_delay_ms // KEEPALIVE_MS


class _RequestInProgress:
    """A request in progress."""

    def __init__(self, session: Session, request: Message):
        self._session, self._request = session, request
        self._collector = packets.MessageReassembler()

    def response(self) -> bytes:
        """Returns the response. An ERROR raises CtapError, as in Client."""
        session, work = self._session, self._session._work
        written = packets.fragment_message(self._request)
        session._packets.record_write(written[0])
        work.request, work.delayed = self._request, 0
        message = self._play([(">", packet) for packet in written])
        while message is None:
            message = self._play(self._list_inputs())
        work.began = time.monotonic()
        work.waited_until = work.began
        if message.command == packets.ERROR:
            code = message.data[0]
            raise InvalidChannelError() if code == _INVALID_CHANNEL else CtapError(code, session.cause(code))
        return session.altered(message.data)

    def _list_inputs(self) -> list[tuple[Field, ...]]:
        """Returns the inputs that the key needs."""
        session = self._session
        kind = session._work.need.kind
        if kind == "presence":
            return self._list_presence_inputs()
        if kind == "key":
            return [session.new_key()]
        if kind == "signature":
            return [session.signature()]
        raise HidlogError(f"the key did not respond to the request {self._request.data[:1].hex()}")

    def _list_presence_inputs(self) -> list[tuple[Field, ...]]:
        """Returns the ticks until the user replies, and the reply."""
        session = self._session
        reply = session._user.reply(self._request)
        assert reply is not None
        ticks = -(-session.presence_delay_ms // (KEEPALIVE_MS + 1))
        return [("t",)] * ticks + [("p", reply)]

    def _play(self, inputs: list[tuple[Field, ...]]) -> Message | None:
        """Passes inputs, and returns the message that the key sends in response, if any.

        The last input is passed separately, since the library reports the cause of a rejection only for the last input.
        """
        session = self._session
        engine = session._engine
        if not isinstance(engine, InProcessKey) or not session._is_open:
            raise KeyClosedError("the key is closed")
        *front, (kind, *fields) = inputs
        message = None
        for start in range(0, len(front), MAX_LINES):
            lines = [
                format_line(str(name), self._next_time(name), tuple(rest))
                for name, *rest in front[start : start + MAX_LINES]
            ]
            message = self._store_reply(engine.exchange_lines("\n".join(lines) + "\n")) or message
        return self._store_reply(engine.play(str(kind), self._next_time(kind), tuple(fields))) or message

    def _next_time(self, kind: Field) -> int:
        """Returns the timestamp of the next input."""
        now = self._session._time
        now.passed += 1 + KEEPALIVE_MS * (kind == "t")
        now.latest = now.passed
        return now.latest

    def _store_reply(self, reply: Reply) -> Message | None:
        """Stores the output of inputs, and returns the message that the key sent, other than KEEPALIVE."""
        session, message = self._session, None
        session._append_log(reply.text)
        session._work.need, session._work.since_ms = reply.need, session._time.latest
        for packet in reply.packets:
            found = self._collector.add(packet)
            if found and found.command != packets.KEEPALIVE:
                message = found
        return message
