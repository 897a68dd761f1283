"""Runs the conformance tests against an authenticator or a client, and reports violations of CTAP 2.1.

    hidlog-conformance --device "COMMAND .." --touch-line touch   test a command that reads and writes packets as lines
    hidlog-conformance --device /dev/hidraw3 --touch              test a Linux hidraw device
    hidlog-conformance --client "COMMAND .."                      test a client
    hidlog-conformance walk ..                                    test a device with one long generated session

The last line is `N passed, N failed, N warned, N skipped`. The exit status is 1 if a case failed, and 2 if the
arguments are invalid or the device does not respond to INIT.
"""

from __future__ import annotations

import argparse
import os
import sys
import threading
from typing import Callable, Dict, List, Optional, Tuple, TypeVar

from hidlog_conformance import __version__, executor, interrupts, keys, report
from hidlog_conformance.client_runner import (
    Played,
    client_sessions,
    write_failed_logs,
    play_clients,
)
from hidlog_conformance.combined import CombinedCase
from hidlog_conformance.devices import Device, PipeDevice, kill_running
from hidlog_conformance.device_options import add_device_options, describe_fault, make_device
from hidlog_conformance.answers import MAKE
from hidlog_conformance import hid_packets as hid
from hidlog_conformance.device_info import DeviceInfo, ask, prepare, send_init
from hidlog_conformance.pin_user import PERMISSIONS, PinUser
from hidlog_conformance.results import FAILED, UNSTABLE, Outcome, ResultFile, Results, collect
from hidlog_conformance.response_reader import CASE_SECONDS, GOES_ON, IN_TIME
from hidlog_conformance.text import escape_text, quantity
from hidlog_conformance.play_order import PINS, asks_person, find_combined, order_sessions
from hidlog_conformance.player import FULL, Player
from hidlog_conformance.session_cache import session_name, session_path, sessions_folder
from hidlog_conformance.session_file import Session, read_session, sends_reset
from hidlog_conformance.touch_saver import Sharing, TouchSaver
from hidlog_conformance.walk_command import parse_walk, run_walk

Result = TypeVar("Result")

# Number of cases that may reach their deadline before the run stops.
MAX_HANGS = 3
# Seconds that a packet may be sent late before a device may drop its message.
MAX_DELAY = 0.05


def all_sessions(only: str = "", paths: Tuple[str, ...] = (), skip: Tuple[str, ...] = ()) -> List[Session]:
    """Returns the sessions (of `paths`, or all) whose name or rule contains `only` and none of the words of `skip`."""
    found = list(map(session_path, paths))
    for folder, _, files in os.walk(sessions_folder()) if not paths else ():
        found += [os.path.join(folder, name) for name in files if name.endswith(".log")]
    sessions = [read_session(path, session_name(path)) for path in sorted(found)]

    def chosen(session: Session) -> bool:
        text = (session.name + " " + session.head["rule"]).lower()
        return only.lower() in text and not any(word.lower() in text for word in skip)

    return [session for session in sessions if chosen(session)]


def is_choice(session: Session, options: argparse.Namespace, device_info: DeviceInfo) -> bool:
    """Returns whether a device may respond otherwise than a session expects: the session is about a choice of this
    project's profile, or about a rule that is new in CTAP 2.1."""
    is_new = bool(session.head.get("since")) and device_info.old
    return not options.profile_choices and (bool(session.head.get("profile")) or is_new)


def adjust_outcome(outcome: Outcome, options: argparse.Namespace, device_info: DeviceInfo) -> Outcome:
    """Returns the outcome to report: SHOULD violations are warnings, and choices of this project's profile are
    skipped."""
    session = outcome.session
    if outcome.status != "not ok" or outcome.expected in (GOES_ON, IN_TIME) or outcome.is_violation:
        return outcome
    if session.head.get("profile") and not options.profile_choices:
        actual = f"{outcome.actual} instead of {outcome.expected}"
        return Outcome(
            session, "skip", f"differs from a choice of this project's profile ({session.head['profile']}): {actual}"
        )
    if session.head.get("since") and device_info.old and not options.profile_choices:
        return Outcome(session, "skip", f"differs, but the device supports only FIDO_2_0: {session.head['since']}")
    if session.head.get("level") == "should" and not options.warnings_as_errors:
        outcome.status = "warn"
    return outcome


def may_be_late(device: Device, outcome: Outcome, options: argparse.Namespace) -> bool:
    """Returns whether a case may have failed because the runner sent packets late, on a busy machine."""
    asks = options.touch and not options.touch_line and "touch" in outcome.session.needs
    return outcome.status == "not ok" and not outcome.hung and device.late > MAX_DELAY and not asks


def mark_unstable(first: Outcome, second: Outcome, late: float) -> Outcome:
    """Returns the outcome of a case that failed and passed when it was repeated: unstable, with both recordings."""
    if first.status == "not ok":
        first.status = UNSTABLE
        first.recordings = [*first.recordings, *second.recordings]
        first.reason = f"failed while the runner was up to {late * 1000:.0f} ms late, then passed"
    return first


def make_pin_user(session: Session, options: argparse.Namespace, device_info: DeviceInfo) -> Optional[PinUser]:
    """Returns the user who gets tokens with --pin; None in a session that is about requests without tokens."""
    if not options.pin or "verified registrations" in session.uses:
        return None
    return PinUser(options.pin, device_info)


def check_pin(device: Device, options: argparse.Namespace, device_info: DeviceInfo) -> None:
    """Checks --pin before the first case, since each use of a wrong PIN decrements the retries."""
    if options.reset:
        raise ValueError("--pin cannot be used with --reset, which removes the PIN")
    if not keys.AVAILABLE:
        raise ValueError("--pin needs python3-cryptography")
    if device_info.options.get("clientPin") is not True:
        raise ValueError(
            "--pin requires a device whose PIN is set: getInfo of this one does not report clientPin: true"
        )
    device_info.has_pin = True
    user = PinUser(options.pin, device_info)
    try:
        channel = int.from_bytes(send_init(device)[8:12], "big")
        user.get_token(lambda request: answer_of(ask(device, channel, hid.CBOR, request)), PERMISSIONS[MAKE], "a.b")
    finally:
        device.close()


def answer_of(message: Optional[hid.Message]) -> bytes:
    """Returns the data of a response. Raises ValueError if there is no response."""
    if message is None:
        raise ValueError("the device does not respond to authenticatorClientPIN")
    return message.data


def prepare_case(
    device: Device, session: Session, options: argparse.Namespace, saver: Optional[TouchSaver], front: str
) -> Tuple[str, Optional[Sharing]]:
    """Resets a device if the case needs it. Returns why the case cannot be played, or an empty string, and the state
    that it shares with other cases."""
    if saver is not None and options.reset:
        return saver.begin(session)
    if "reset" not in session.needs or device.fresh or front:
        return "", None
    print(f"resetting the device for {session.name}", file=sys.stderr)
    return prepare(device, any(map(sends_reset, session.steps))), None


def play_one(
    device: Device,
    session: Session,
    options: argparse.Namespace,
    device_info: DeviceInfo,
    saver: Optional[TouchSaver] = None,
    again: bool = True,
) -> Outcome:
    """Plays a session, or skips it with a reason. With `saver` the session may reuse credentials of earlier cases
    instead of a reset. A case that failed while the runner was late is repeated once, and is unstable if it then
    passes."""
    pin_user = make_pin_user(session, options, device_info)
    front = pin_user.find_rp_prefix(session) if pin_user is not None and not device.fresh else ""
    needed = pin_user.without_own_pin(session) if pin_user is not None else session
    reason = device_info.find_skip_reason(needed, device, options.touch, options.reset or bool(front))
    reason = reason or (pin_user.find_obstacle(session) if pin_user is not None else "")
    try:
        reason, sharing = (reason, None) if reason else prepare_case(device, session, options, saver, front)
    except OSError as fault:
        return Outcome(session, "not ok", "", GOES_ON, f"before the case: {fault}")
    if reason:
        return Outcome(session, "skip", reason)
    reuse = saver.pool if saver is not None else None
    front = sharing.front if sharing is not None else front
    player = Player(device, session, options.profile_choices, device_info.facts(), options.deadline, reuse, front)
    player.use_pin(pin_user)
    player.sharing = sharing
    outcome = player.play()
    if outcome.status == "not ok" and not outcome.hung and is_choice(session, options, device_info):
        outcome = player.judge_choice(outcome)
    device_info.protection = max(device_info.protection, player.facts.protection)
    outcome.recordings = [player.format_recording()]
    if saver is not None and options.reset:
        saver.end(session, outcome.status == "ok", player.known)
    if may_be_late(device, outcome, options) and again:
        late = device.late
        second = play_one(device, session, options, device_info, saver, False)
        first = adjust_outcome(outcome, options, device_info)
        return second if second.status in FAILED else mark_unstable(first, second, late)
    if sharing is not None and outcome.status == "skip" and outcome.reason.startswith(FULL) and again:
        # The device is full because of other cases' credentials.
        saver = None if saver is None else saver.forget()
        return play_one(device, session, options, device_info, saver, False)
    return adjust_outcome(outcome, options, device_info)


def play_in_worker(task: Tuple[Session, argparse.Namespace, DeviceInfo]) -> Outcome:
    """Plays a session against a new device, in a worker process."""
    session, options, device_info = task
    return play_one(make_device(options), session, options, device_info)


def play_on_cluster(
    sessions: List[Session], options: argparse.Namespace, device_info: DeviceInfo, results: Results[Outcome]
) -> None:
    """Plays sessions on the workers of --executor."""
    tasks = [(session, options, device_info) for session in sessions]
    folder = os.path.dirname(os.path.dirname(os.path.abspath(__file__)))
    for number, outcome in enumerate(executor.iter_results(options.executor, [folder], play_in_worker, tasks)):
        results.add(number, outcome)


def play_alone(
    sessions: List[Session],
    combined: List[CombinedCase],
    play_whole: Callable[[Session], Outcome],
    play: Callable[[Session, Device], Outcome],
    device: Device,
    results: Results[Outcome],
) -> None:
    """Plays sessions one after another. Combined sessions are played as one, and each by itself if that fails."""
    wholes = {part.name: one for one in combined for part in one.parts}
    for number, session in enumerate(sessions):
        whole = wholes.get(session.name)
        if whole is None:
            results.add(number, play(session, device))
            continue
        if whole.outcome is None:
            whole.outcome = play_whole(whole.whole)
        has_passed = whole.outcome.status == "ok"
        results.add(number, Outcome(session, "ok") if has_passed else whole.add_part(play(session, device)))


def play_all(
    device: Device,
    sessions: List[Session],
    options: argparse.Namespace,
    device_info: DeviceInfo,
    results: Results[Outcome],
) -> None:
    """Plays sessions one after another, or in parallel if each starts a command that needs no person. Adds each outcome
    when its case ends."""
    hangs, lock = [0], threading.Lock()
    asks = asks_person(options)
    saver = TouchSaver(device, device_info) if asks and device.lasting and not options.isolated else None

    def play(session: Session, own: Device) -> Outcome:
        if hangs[0] >= MAX_HANGS:
            return Outcome(session, "not ok", "", IN_TIME, f"not played: {MAX_HANGS} cases reached their deadline")
        if options.device and options.report == "text":
            # A single write keeps the line together, since other threads write lines, too.
            sys.stderr.write(f"playing {session.name}\n")
        outcome = play_one(own, session, options, device_info, saver)
        interrupts.wait_for_end(own.status)
        with lock:
            hangs[0] += outcome.hung
        if options.report == "text" and not results.is_closed:
            report.print_failure(outcome)
        return outcome

    alone = not isinstance(device, PipeDevice) or options.persistent or asks
    if options.executor and not alone:
        play_on_cluster(sessions, options, device_info, results)
        return
    if options.executor:
        raise ValueError("--executor needs --device COMMAND without --persistent, and --touch-line instead of --touch")
    if alone:
        combined = find_combined(device, sessions, options, device_info)
        play_alone(
            sessions, combined, lambda one: play_one(device, one, options, device_info, saver), play, device, results
        )
    else:
        collect(lambda session: play(session, make_device(options)), sessions, options.jobs, results)


def parse_options(arguments: List[str]) -> argparse.Namespace:
    """Parses the command line."""
    parser = argparse.ArgumentParser(
        prog="hidlog-conformance",
        description="Run the CTAP 2.1 conformance tests against an authenticator or a client.",
    )
    add_device_options(parser)
    parser.add_argument("--warnings-as-errors", action="store_true", help="count SHOULD violations as failures")
    parser.add_argument(
        "--profile-choices", action="store_true", help="test the choices of this project's profile, too"
    )
    parser.add_argument("--strict", action="store_true", help="--warnings-as-errors and --profile-choices")
    parser.add_argument("--only", default="", metavar="WORD", help="run the cases whose name or rule contains WORD")
    parser.add_argument(
        "--skip",
        action="append",
        default=[],
        metavar="WORD",
        help="do not run the cases whose name or rule contains WORD",
    )
    parser.add_argument(
        "--expected-failures", default="", metavar="FILE", help="file of cases that are expected to fail"
    )
    parser.add_argument(
        "--resume", default="", metavar="FILE", help="write each result to FILE, and leave out cases that it has"
    )
    parser.add_argument("--list", action="store_true", help="list the cases and exit")
    parser.add_argument("--report", choices=sorted(report.WRITERS), default="text", help="output format")
    parser.add_argument("--client", default="", metavar="COMMAND", help="test a client: play the device to COMMAND")
    parser.add_argument("--slow", action="store_true", help="with --client: one minute of KEEPALIVEs takes a minute")
    parser.add_argument("--logs", default="", metavar="DIR", help="with --client: save the logs of failed cases to DIR")
    parser.add_argument("--version", action="version", version=f"hidlog-conformance {__version__}")
    parser.add_argument("sessions", nargs="*", metavar="SESSION", help="session files (default: all)")
    options = parser.parse_args(arguments)
    if options.executor:
        try:
            executor.parse_address(options.executor)
        except ValueError as fault:
            parser.error(str(fault))
    if options.client and (options.pin or options.resume):
        parser.error("--pin and --resume are for devices, not for --client")
    options.touch = options.touch or bool(options.touch_line)
    strict = options.strict or options.device is None and not options.client
    options.warnings_as_errors = options.warnings_as_errors or strict
    options.profile_choices = options.profile_choices or strict
    return options


def results_so_far(results: "Results[Result]") -> "List[Result]":
    """Returns the results so far, and ignores signals from now on, so that the report is written completely."""
    interrupts.ignore_signals()
    found = results.close()
    kill_running()
    return found


def report_results(
    options: argparse.Namespace, outcomes: List[Outcome], header: Dict[str, str], interrupted: int = 0
) -> int:
    """Writes the report, compares it with the expected failures, and returns the exit status. `interrupted` is the
    number of cases of a run that was interrupted, or 0."""
    if interrupted:
        header["interrupted"] = f"after {len(outcomes)} of {quantity(interrupted, 'case')}"
    report.write(options.report, outcomes, header)
    if interrupted:
        return interrupts.INTERRUPTED
    failed = {outcome.session.name for outcome in outcomes if outcome.status in FAILED}
    if not options.expected_failures:
        return 1 if failed else 0
    played = {outcome.session.name for outcome in outcomes if outcome.status != "skip"}
    expected = set(report.parse_list(options.expected_failures)) & played
    for name in sorted(failed ^ expected):
        text = "unexpected failure" if name in failed else "unexpected success"
        print(f"{text} (according to {options.expected_failures}): {name}", file=sys.stderr)
    return 1 if failed - expected else 0


def play_to_client(options: argparse.Namespace) -> int:
    """Tests a client: plays the device to its command, and writes the report."""
    sessions = client_sessions(options.only, options.sessions)
    sessions = [one for one in sessions if not any(word in one.session.name for word in options.skip)]
    if not sessions:
        raise ValueError(report.describe_no_case(options.only, options.skip))
    results: Results[Played] = Results()
    interrupted = False
    try:
        play_clients(options.client, sessions, options.slow, options.warnings_as_errors, options.deadline, results)
    except KeyboardInterrupt:
        interrupted = True
    played = results_so_far(results)
    if options.logs:
        write_failed_logs(options.logs, played)
    header = report.make_client_header(options.client)
    return report_results(options, [outcome for outcome, _ in played], header, len(sessions) if interrupted else 0)


def print_list(options: argparse.Namespace) -> int:
    """Lists the cases."""
    if options.client:
        sessions = [found.session for found in client_sessions(options.only, options.sessions)]
    else:
        sessions = all_sessions(options.only, tuple(options.sessions), tuple(options.skip))
    for session in sessions:
        print(f"{session.name}: {session.head['rule']}: {session.head['requirement']}")
    return 0


def open_result_file(sessions: List[Session], options: argparse.Namespace, device_info: DeviceInfo) -> ResultFile:
    """Opens the file of --resume; raises ValueError if it was written for another device or with other options."""
    header = report.make_device_header(options.device or "", device_info)
    whole: Dict[str, object] = {name: header[name] for name in ("corpus", "device", "AAGUID", "versions")}
    whole.update({name: getattr(options, name) for name in ("touch", "reset", "warnings_as_errors", "profile_choices")})
    return ResultFile(options.resume, {**whole, "pin": bool(options.pin)}, sessions)


def is_done(session: Session, done: List[Outcome]) -> bool:
    """Returns whether an earlier run has the result of a session."""
    return any(outcome.session is session for outcome in done)


def ask_device(device: Device, options: argparse.Namespace) -> DeviceInfo:
    """Asks a device for its features. With --reset the device is reset first if a PIN is set, for example by an
    interrupted run, since cases set their own."""
    device_info = DeviceInfo.ask(device, options.touch, options.display)
    if options.reset and options.touch and not device.fresh and device_info.options.get("clientPin") is True:
        print("resetting the device to remove its PIN", file=sys.stderr)
        if not prepare(device, False):
            device_info = DeviceInfo.ask(device, options.touch, options.display)
    return device_info


def play_to_device(options: argparse.Namespace) -> int:
    """Tests a device: plays the host to it, and writes the report."""
    sessions = all_sessions(options.only, tuple(options.sessions), tuple(options.skip))
    if not sessions:
        raise ValueError(report.describe_no_case(options.only, options.skip))
    device = make_device(options)
    device_info, results = DeviceInfo(display=options.display), Results[Outcome]()
    interrupted = False
    done: List[Outcome] = []
    try:
        device_info = ask_device(device, options)
        if options.pin:
            check_pin(device, options, device_info)
        if not keys.AVAILABLE:
            print("skipped: signatures not checked: python3-cryptography is not installed", file=sys.stderr)
        if options.reset and not device.fresh:
            print("RESETTING the device: all its credentials are deleted", file=sys.stderr)
        ordered = order_sessions(device, sessions, options, device_info)
        if options.resume:
            earlier = open_result_file(ordered, options, device_info)
            results.write = earlier.add
            done = list(earlier.done.values())
        play_all(device, [one for one in ordered if not is_done(one, done)], options, device_info, results)
        if device.lasting and options.reset and any(PINS in session.uses for session in sessions):
            print("resetting the device to remove the PIN", file=sys.stderr)
            prepare(device, False)
    except KeyboardInterrupt:
        interrupted = True
        if device.lasting and options.reset:
            print("the device may have a PIN and credentials of the interrupted case", file=sys.stderr)
    outcomes = done + results_so_far(results)
    header = report.make_device_header(options.device or "release/hidlog live", device_info)
    return report_results(options, outcomes, header, len(sessions) if interrupted else 0)


def main(arguments: List[str]) -> int:
    """Runs the command."""
    options = parse_walk(arguments[1:]) if arguments[:1] == ["walk"] else parse_options(arguments)
    try:
        if arguments[:1] == ["walk"]:
            return run_walk(options)
        if options.list:
            return print_list(options)
        if options.expected_failures:
            # An error in the list is reported before the run instead of after it.
            report.parse_list(options.expected_failures)
        return play_to_client(options) if options.client else play_to_device(options)
    except BrokenPipeError:
        raise
    except (OSError, ValueError) as fault:
        print(f"hidlog-conformance: {escape_text(describe_fault(fault))}", file=sys.stderr)
        return 2


def command(arguments: List[str]) -> int:
    """Runs the command; exits quietly if the reader of its output closes the pipe."""
    interrupts.install()
    try:
        if hasattr(sys.stdout, "reconfigure"):
            sys.stdout.reconfigure(errors="backslashreplace")
        status = main(arguments)
        sys.stdout.flush()
        return status
    except KeyboardInterrupt:
        return interrupts.INTERRUPTED
    except BrokenPipeError:
        os.dup2(os.open(os.devnull, os.O_WRONLY), sys.stdout.fileno())
        return 141


def main_installed() -> int:
    """Entry point of the installed command."""
    return command(sys.argv[1:])
