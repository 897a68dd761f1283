"""Readers that unpack gzip files in bounded memory, and convert UTF-16 to UTF-8.

Wireshark can write captures in gzip; PowerShell's `>` and Tee-Object write UTF-16.
"""

from __future__ import annotations

import codecs
import io
import zlib

from .source import CaptureError, Readable

GZIP_MAGIC = b"\x1f\x8b\x08"
_READ_BYTES = 1 << 16
# Maximum unpacked size: a gzip file of 1 MB may unpack to 1 GB.
MAX_UNPACKED = 64 << 20
BYTE_ORDER_MARKS = (codecs.BOM_UTF16_LE, codecs.BOM_UTF16_BE)


class Unpacked:
    """Reads the unpacked data of a gzip file, up to a damaged or truncated part."""

    def __init__(self, file: Readable, front: bytes):
        self._file = file
        self._packed = front
        self._unpack = zlib.decompressobj(wbits=31)
        self._ready = b""
        self.is_broken = False

    def read(self, count: int) -> bytes:
        """Returns `count` bytes, or fewer at the end."""
        while len(self._ready) < count and self._unpack_piece(count):
            pass
        data, self._ready = self._ready[:count], self._ready[count:]
        return data

    def _unpack_piece(self, count: int) -> bool:
        """Unpacks a piece. Returns whether there may be more."""
        if self.is_broken:
            return False
        packed = self._packed or self._file.read(_READ_BYTES)
        try:
            self._ready += self._unpack.decompress(packed, max(count, _READ_BYTES))
        except zlib.error:
            self.is_broken = True
            return False
        self._packed = self._unpack.unconsumed_tail or self._unpack.unused_data
        if self._unpack.eof and self._packed:
            self._unpack = zlib.decompressobj(wbits=31)
        self.is_broken = not packed and not self._unpack.eof
        return bool(packed)


def unpack(file: Readable, front: bytes) -> Unpacked:
    """Returns a reader for a gzip file that starts with `front`, after checking the unpacked size."""
    pieces, length = [front], len(front)
    while length <= MAX_UNPACKED and (piece := file.read(_READ_BYTES)):
        pieces.append(piece)
        length += len(piece)
    packed = b"".join(pieces)
    measured = Unpacked(io.BytesIO(packed), b"")
    length = 0
    while length <= MAX_UNPACKED and (piece := measured.read(1 << 20)):
        length += len(piece)
    if max(length, len(packed)) > MAX_UNPACKED:
        size = f"{MAX_UNPACKED >> 20} MiB"
        raise CaptureError(f"the gzip file is larger than {size}, packed or unpacked; unpack it first, with gunzip")
    return Unpacked(io.BytesIO(packed), b"")


class Utf16Text:
    """Reads a text that starts with a UTF-16 byte order mark, which is skipped."""

    def __init__(self, file: Readable):
        self._file = file
        self._decoder = codecs.getincrementaldecoder("utf-16")()
        self._ready = b""
        self._is_ended = False

    def read(self, count: int) -> bytes:
        """Returns `count` bytes of UTF-8, or fewer at the end."""
        while len(self._ready) < count and not self._is_ended:
            piece = self._file.read(_READ_BYTES)
            self._is_ended = not piece
            try:
                self._ready += self._decoder.decode(piece, self._is_ended).encode()
            except UnicodeError:
                raise CaptureError(
                    "the file starts like UTF-16 but is not valid UTF-16; in PowerShell, write the file with | Out-File -Encoding ascii"
                ) from None
        data, self._ready = self._ready[:count], self._ready[count:]
        return data
