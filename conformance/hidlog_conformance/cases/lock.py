"""Cases about CTAPHID_LOCK, for devices that support this optional command (CTAP 2.1, 11.2.6 and 11.2.9.2.2)."""

from __future__ import annotations

from typing import TYPE_CHECKING, List

from hidlog_conformance import hid_packets as hid
from hidlog_conformance.cases.corpus import INFO, Case

if TYPE_CHECKING:
    from typing_extensions import Self

# Seconds of a lock: short ones, since the next case has to wait for their end if the device fails; and the maximum.
SHORT, LONGER, MAX_LOCK = 1, 2, 10
# The channel ID of the second host.
OTHER_CHANNEL = 2


class LockCase(Case):
    """A case with two hosts, the first of which may lock the device."""

    def __init__(self, name: str, requirement: str, level: str = "") -> None:
        super().__init__(f"lock/{name}", "lock", requirement, uses=["lock"], level=level)
        self.allocate(2)

    def lock(self, seconds: int = SHORT, channel: int = 1) -> Self:
        """Sends a LOCK."""
        self.send(channel, hid.LOCK, bytes([seconds]))
        return self

    def lock_device(self, seconds: int = SHORT) -> Self:
        """Locks the device for the first host."""
        return self.lock(seconds).expect("message 04 none")

    def release_lock(self) -> Self:
        """Releases the lock before the next case."""
        return self.lock(0).expect("message 04 none")

    def expect_other_refused(self) -> Self:
        """Sends a PING of the other host, which gets the error 06."""
        self.send(OTHER_CHANNEL, hid.PING, b"let me in").expect(f"error 06 on {OTHER_CHANNEL:08x}")
        return self


def cases() -> List[Case]:
    """Returns the cases of this file."""
    found: List[Case] = []
    case = LockCase("response", "The response to LOCK has no data.")
    found.append(case.lock_device().release_lock().expect_alive())
    case = LockCase("of_the_longest_time", "A lock of ten seconds is accepted.")
    found.append(case.lock_device(MAX_LOCK).expect_alive().release_lock())
    case = LockCase("excludes_others", "During a lock other channels are refused.")
    found.append(case.lock_device().expect_other_refused().expect_alive().expect_other_refused().release_lock())
    case = LockCase("excludes_requests", "During a lock requests of other channels are refused.")
    found.append(
        case.lock_device()
        .cbor(INFO, OTHER_CHANNEL)
        .expect(f"error 06 on {OTHER_CHANNEL:08x}")
        .cbor(INFO)
        .expect("info")
        .release_lock()
    )
    case = LockCase("excludes_locks", "During a lock another channel cannot lock.")
    case.lock_device().lock(SHORT, OTHER_CHANNEL).expect(f"error 06 on {OTHER_CHANNEL:08x}")
    found.append(case.expect_alive().expect_other_refused().release_lock())
    case = LockCase("excludes_releases", "Another channel cannot release a lock.")
    found.append(
        case.lock_device()
        .lock(0, OTHER_CHANNEL)
        .expect(f"error 06 on {OTHER_CHANNEL:08x}")
        .expect_other_refused()
        .release_lock()
    )
    case = LockCase("released", "A LOCK of zero seconds releases the device.")
    found.append(case.lock_device().release_lock().expect_alive(OTHER_CHANNEL).expect_alive())
    case = LockCase("released_unlocked", "A LOCK of zero seconds without a lock has no effect.")
    found.append(case.release_lock().expect_alive(OTHER_CHANNEL).expect_alive())
    case = LockCase("runs_out", "A lock ends after its time.")
    found.append(case.lock_device().expect_other_refused().tick(1500).expect_alive(OTHER_CHANNEL).expect_alive())
    case = LockCase("passes_on", "After a lock another channel can lock.")
    case.lock_device().release_lock().lock(SHORT, OTHER_CHANNEL).expect(f"message 04 none on {OTHER_CHANNEL:08x}")
    case.send(1, hid.PING, b"and me").expect("error 06").expect_alive(OTHER_CHANNEL)
    found.append(case.lock(0, OTHER_CHANNEL).expect(f"message 04 none on {OTHER_CHANNEL:08x}").expect_alive())
    case = LockCase("lasts", "A lock lasts for its time.")
    found.append(case.lock_device(LONGER).tick(1400).expect_other_refused().release_lock())
    case = LockCase("renewed", "A further LOCK begins its time anew.")
    case.lock_device(LONGER).tick(1400).lock_device(LONGER).tick(1400)
    found.append(case.expect_other_refused().release_lock().expect_alive(OTHER_CHANNEL))
    case = LockCase("shortened", "A further LOCK may shorten a lock.")
    found.append(case.lock_device(MAX_LOCK).lock_device().tick(1500).expect_alive(OTHER_CHANNEL).expect_alive())
    for length in (0, 2):
        case = LockCase(f"length_{length}", "A LOCK with an invalid length is refused.")
        found.append(
            case.send(1, hid.LOCK, bytes(length)).expect("error 03").expect_alive(OTHER_CHANNEL).expect_alive()
        )
    case = LockCase("of_eleven_seconds", "A lock is for at most ten seconds.", "should")
    found.append(case.lock(MAX_LOCK + 1).expect("error 02").expect_alive(OTHER_CHANNEL))
    return found
