"""The command line's options about the device, the device that they name, and descriptions of its errors."""

from __future__ import annotations

import argparse
import os

from hidlog_conformance.devices import Device, HidrawDevice, LiveDevice, PipeDevice
from hidlog_conformance.paths import PROGRAM
from hidlog_conformance.response_reader import CASE_SECONDS


def make_device(options: argparse.Namespace) -> Device:
    """Returns the device that the options name."""
    if options.device is None:
        if not os.path.exists(PROGRAM):
            raise ValueError("no device: use --device COMMAND or --device /dev/hidrawN")
        return LiveDevice()
    if not options.device.strip():
        raise ValueError("--device is empty")
    if options.device.startswith("/dev/"):
        return HidrawDevice(options.device, options.touch)
    return PipeDevice(options.device, options.touch, options.touch_line, options.persistent)


def add_device_options(parser: argparse.ArgumentParser) -> None:
    """Adds the options about the device."""
    parser.add_argument("--device", help="a command line, or /dev/hidrawN")
    parser.add_argument("--touch", action="store_true", help="ask a person to touch the device")
    parser.add_argument(
        "--touch-line", default="", metavar="LINE", help="line to write to the command instead of a touch"
    )
    parser.add_argument("--jobs", type=int, default=4, metavar="N", help="run N commands in parallel (default: 4)")
    parser.add_argument("--executor", default="", metavar="dask://HOST:PORT", help="run on a Dask cluster")
    parser.add_argument("--persistent", action="store_true", help="the command keeps credentials across restarts")
    parser.add_argument("--reset", action="store_true", help="allow resets: DELETES ALL CREDENTIALS OF THE DEVICE")
    parser.add_argument("--pin", default="", metavar="PIN", help="the PIN of a device that keeps it (no --reset)")
    parser.add_argument("--isolated", action="store_true", help="do not share credentials between cases")
    parser.add_argument("--display", action="store_true", help="the device has a display to select accounts")
    parser.add_argument(
        "--deadline", type=float, default=CASE_SECONDS, metavar="SECONDS", help="time limit of a case (default: 60)"
    )


def describe_fault(fault: Exception) -> str:
    """Describes an error. The description of an OSError is the file's name and the reason, with advice for a device."""
    if not isinstance(fault, OSError) or not fault.strerror:
        return str(fault)
    if fault.filename is None:
        return fault.strerror
    name = str(fault.filename)
    is_refused = isinstance(fault, PermissionError) and name.startswith("/dev/hidraw")
    return f"{name}: {fault.strerror}" + (": allow it by a udev rule, or run as root" if is_refused else "")
