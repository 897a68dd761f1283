"""A key as python-fido2's CtapDevice.

Tested with version 0.9. For versions 1.x and 2.x, the class follows the documented interface of fido2.ctap.CtapDevice
(`call`, `capabilities`, `close`, `list_devices`), but is not tested.
"""

from __future__ import annotations

from collections.abc import Callable, Iterator
from typing import Any

from .client import Client
from .errors import CtapError, MissingDependencyError

try:
    from fido2.ctap import STATUS, CtapDevice
    from fido2.ctap import CtapError as FidoError
except ImportError as missing:
    raise MissingDependencyError(
        "python-fido2 is missing: pip install fido2, or apt-get install python3-fido2"
    ) from missing


class DeviceError(CtapError, FidoError):
    """A transport error of a key, which is an exception of python-fido2 and of this package."""

    def __init__(self, status: int, cause: str = ""):
        FidoError.__init__(self, status)
        CtapError.__init__(self, status, cause)


class KeyDevice(CtapDevice):
    """A device with its own channel."""

    def __init__(self, key: Any):
        self._client = Client(key)

    def __repr__(self) -> str:
        return f"KeyDevice(channel {self._client.channel})"

    @property
    def capabilities(self) -> int:
        """The capability flags of the INIT response."""
        return self._client.capabilities

    @property
    def version(self) -> int:
        """The CTAPHID protocol version."""
        return self._client.version

    @property
    def device_version(self) -> tuple[int, ...]:
        """The device version, three numbers."""
        return self._client.device_version

    def call(
        self, cmd: int, data: bytes = b"", event: Any = None, on_keepalive: Callable[[int], None] | None = None
    ) -> bytes:
        """Sends a command, and returns the response. Setting the event cancels the request."""

        def seen(status: int) -> None:
            if on_keepalive:
                on_keepalive(STATUS(status) if status in list(STATUS) else status)

        try:
            return self._client.transact(int(cmd), bytes(data), event.is_set if event else lambda: False, seen)
        except CtapError as error:
            raise DeviceError(error.status, error.cause) from None

    def close(self) -> None:
        """Does nothing, since other clients may use the key."""

    @classmethod
    def list_devices(cls) -> Iterator[KeyDevice]:
        """Yields nothing, since tests create the keys."""
        return iter(())
