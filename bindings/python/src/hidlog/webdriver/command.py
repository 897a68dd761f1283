"""The command `hidlog webdriver`."""

from __future__ import annotations

import argparse
import ipaddress
import shlex
import signal
import tempfile
import threading
from pathlib import Path

from .driver import Driver, is_address, start
from .errors import DriverError, print_error
from .gate import parse_host
from .proxy import Proxy
from .script import read_script
from .server import Server

_DESCRIPTION = "WebDriver proxy that provides virtual authenticators, with a test key in the page."
_EPILOG = """A test suite uses http://127.0.0.1:PORT as its driver. Whoever can reach the port controls the browser and can
run programs with it, so the proxy listens on this machine only, and refuses requests from web pages."""

# Interval in seconds at which the server checks whether to end.
_POLL_SECONDS = 0.1


def _parse_address(text: str) -> str:
    try:
        return str(ipaddress.ip_address(text))
    except ValueError:
        raise argparse.ArgumentTypeError(f"{text!r} is not an IP address; expected one such as 0.0.0.0") from None


def _parse_host(text: str) -> str:
    if parse_host(text) is None:
        raise argparse.ArgumentTypeError(f"{text!r} is not a host; expected NAME or NAME:PORT")
    return text


def _parse_port(text: str) -> int:
    if not text.isascii() or not text.isdigit() or int(text) > 65535:
        raise argparse.ArgumentTypeError(f"{text!r} is not a port; expected 0 to 65535")
    return int(text)


def _make_parser() -> argparse.ArgumentParser:
    parser = argparse.ArgumentParser(prog="hidlog webdriver", description=_DESCRIPTION, epilog=_EPILOG)
    parser.add_argument(
        "--port", type=_parse_port, default=4444, help="port to listen on, 0 for any free port [default: 4444]"
    )
    parser.add_argument(
        "--driver",
        default="chromedriver",
        help="command that starts a driver and takes --port, or a running driver's address, such as http://127.0.0.1:9515",
    )
    parser.add_argument("--recordings", type=Path, metavar="DIR", help="directory for session logs")
    parser.add_argument(
        "--listen",
        type=_parse_address,
        default="127.0.0.1",
        metavar="ADDRESS",
        help="address to listen on [default: 127.0.0.1]",
    )
    parser.add_argument(
        "--allow-hosts",
        type=_parse_host,
        nargs="+",
        default=[],
        metavar="HOST",
        help="accept requests for these hosts, too, such as a container's name",
    )
    return parser


def _start_driver(driver: str) -> Driver:
    if is_address(driver):
        return Driver(driver)
    words = shlex.split(driver)
    if not words:
        raise DriverError("session not created", "--driver is empty; expected a command or an address")
    return start(words)


def _prepare(folder: Path | None) -> None:
    """Creates the directory for recordings, and checks that it is writable."""
    if folder is not None:
        try:
            folder.mkdir(parents=True, exist_ok=True)
            tempfile.TemporaryFile(dir=folder).close()
        except OSError as error:
            raise DriverError("unknown error", f"cannot write to --recordings {folder}: {error.strerror}") from None


def _describe_host(host: str) -> str:
    return f"[{host}]" if ":" in host else host


def _warn_if_reachable(address: str, port: int) -> None:
    """Warns if other machines can reach the server."""
    if not ipaddress.ip_address(address).is_loopback:
        print_error(
            f"warning: other machines can reach {_describe_host(address)}:{port} and run programs on this one;"
            " use this only in a container or a closed network"
        )


def _report_fatal(text: object) -> int:
    """Reports a fatal error in one line, and returns the exit status."""
    print_error(text)
    return 2


def _serve(server: Server) -> BaseException | None:
    """Serves until a signal or an error ends it. Returns the error, if any."""
    is_over = threading.Event()
    failed: list[BaseException] = []

    def serve() -> None:
        try:
            server.serve_forever()
        except BaseException as error:  # the driver must be ended in any case
            failed.append(error)
            is_over.set()

    for number in (signal.SIGTERM, signal.SIGINT, getattr(signal, "SIGHUP", signal.SIGINT)):
        signal.signal(number, lambda *_: is_over.set())
    threading.Thread(target=serve, daemon=True).start()
    # A signal that arrives in another thread does not wake this thread.
    while not is_over.wait(_POLL_SECONDS):
        pass
    if not failed:
        server.shutdown()
    return failed[0] if failed else None


def _run(options: argparse.Namespace, proxy: Proxy) -> int:
    """Serves commands for a running driver."""
    try:
        server = Server(proxy.serve, options.port, options.listen, tuple(options.allow_hosts))
    except OSError as error:
        return _report_fatal(f"cannot listen on {_describe_host(options.listen)}:{options.port}: {error.strerror}")
    try:
        _warn_if_reachable(options.listen, server.port)
        name = proxy.driver.address if is_address(options.driver) else options.driver
        address = f"http://{_describe_host(options.listen)}:{server.port}"
        print(f"hidlog webdriver: {address} is {name} with virtual authenticators of a test key", flush=True)
        failure = _serve(server)
        return _report_fatal(f"stopped: {failure}") if failure else 0
    finally:
        server.server_close()


def main(words: list[str] | None = None) -> int:
    """Serves until interrupted. A failure in a thread is reported in one line, and the other threads continue."""
    options = _make_parser().parse_args(words)
    threading.excepthook = lambda hook_args: print_error(f"a thread failed: {hook_args.exc_value!r}")
    try:
        read_script()
        _prepare(options.recordings)
        driver = _start_driver(options.driver)
    except (DriverError, OSError, ValueError, RuntimeError) as error:
        return _report_fatal(error)
    except KeyboardInterrupt:
        return _report_fatal("interrupted")
    proxy = Proxy(driver, options.recordings)
    try:
        status = _run(options, proxy)
    except (OSError, RuntimeError) as error:
        status = _report_fatal(error)
    except KeyboardInterrupt:
        status = _report_fatal("interrupted")
    is_written = proxy.close()
    return status if is_written else 2
