"""Locust users who sign in with security keys. Each user has a key, which is kept for the next run.

    from hidlog.locust import SecurityKeyUser
    from locust import constant, task

    class Visitor(SecurityKeyUser):
        wait_time = constant(1)

        @task(9)
        def signs_in(self): self.sign_in()

        @task(1)
        def signs_up(self): self.sign_up()

The process that starts a test (Locust's master, or the only process) stores the keys in the file --security-keys, and
distributes them to the workers at the start of a test. Workers send changed keys back with their statistics, every
three seconds and at the end. So a second run signs in with the users of the first (docs/use/LOAD.md).
"""

from __future__ import annotations

import os
import re
import sqlite3
import time
import uuid
from collections.abc import Callable, Iterator
from contextlib import contextmanager
from pathlib import Path
from typing import TYPE_CHECKING, Any

from locust import events, runners  # imported before modules that may block, since locust patches threading with gevent
from locust.contrib.fasthttp import FastHttpUser
from locust.runners import MasterRunner, WorkerRunner

from .errors import HidlogError
from .key import SecurityKey

if TYPE_CHECKING:
    from .browser import Browser

# Debian's Locust 2.12.1 has an empty version, and its master refuses workers without one.
setattr(runners, "__version__", getattr(runners, "__version__", None) or "unknown")

# A killed worker loses the signature counters since its last report. Counters may skip values, but must not repeat.
COUNTER_MARGIN = 100_000
# Number of ceremonies of 2.3 kB each after which a new recording starts.
CEREMONIES_RECORDED = 20
_MESSAGE = "hidlog_security_keys"
_MAX_TEXT = 200


class ServiceError(HidlogError):
    """The service rejected a request, or could not be reached."""


class Store:
    """The keys of all users, stored in an SQLite file."""

    def __init__(self, path: str):
        with open(path, "ab", opener=lambda name, flags: os.open(name, flags, 0o600)):
            pass  # the file has private keys, so only the owner may read it
        self._rows = sqlite3.connect(path, isolation_level=None)
        self._rows.execute("pragma journal_mode = wal")
        self._rows.execute("create table if not exists keys (name text primary key, text text not null)")

    def put(self, texts: dict[str, str]) -> None:
        """Stores the keys of these users."""
        if texts:
            self._rows.execute("begin")
            update = "insert into keys values (?, ?) on conflict (name) do update set text = excluded.text"
            self._rows.executemany(update, texts.items())
            self._rows.execute("commit")

    def first(self, count: int) -> dict[str, str]:
        """Returns the first `count` users that were stored, with their keys."""
        return dict(self._rows.execute("select name, text from keys order by rowid limit ?", (count,)))

    def close(self) -> None:
        """Writes all changes to the file, and closes the file."""
        self._rows.close()


class _KeyInUse:
    """The key of a user, the text that was last dumped or loaded, and the key's revision at that time (-1 if there was
    none)."""

    def __init__(self, key: SecurityKey, text: str):
        self.key, self.text, self.revision = key, text, key.revision if text else -1

    @property
    def is_changed(self) -> bool:
        """Whether the key has changed since the last dump or load."""
        return self.key.revision != self.revision

    def dump(self) -> str:
        """Dumps the key, and returns the text."""
        revision = self.key.revision
        self.text, self.revision = self.key.dumps(), revision
        return self.text


class Users:
    """The users of this process: the users that are not assigned to a Locust user, and the users whose keys changed
    since the last report."""

    def __init__(self) -> None:
        self.waiting: dict[str, str] = {}
        self.in_use: dict[str, _KeyInUse] = {}
        self.ended: dict[str, str] = {}
        self.store: Store | None = None

    def take(self, name: str, key: SecurityKey, text: str = "") -> None:
        """Assigns a key to a user. The key is loaded from a text, or new."""
        self.in_use[name] = _KeyInUse(key, text)

    def report(self) -> dict[str, str]:
        """Returns the keys that changed since the last report."""
        changed, self.ended = self.ended, {}
        changed.update((name, used.dump()) for name, used in self.in_use.items() if used.is_changed)
        return changed

    def give_back(self, name: str) -> None:
        """Takes back a user, and closes the user's key."""
        used = self.in_use.pop(name)
        if used.is_changed:
            self.ended[name] = used.dump()
        self.waiting[name] = used.text
        used.key.close()


users = Users()


def _add_arguments(parser: Any) -> None:
    group = parser.add_argument_group("Security keys", "of hidlog.locust")
    group.add_argument(
        "--security-keys", default="security_keys.db", help="database file of users and keys, on the master"
    )
    group.add_argument("--failed-logs", default="", help="directory for the session logs of failed ceremonies")
    group.add_argument("--sampled-logs", type=int, default=0, help="record one in N ceremonies")


def _on_init(environment: Any, **_: Any) -> None:
    if environment.parsed_options is None:
        return
    if not isinstance(environment.runner, WorkerRunner):
        users.store = Store(environment.parsed_options.security_keys)
    if not isinstance(environment.runner, MasterRunner):
        environment.runner.register_message(_MESSAGE, lambda msg, **_: users.waiting.update(msg.data))


def _on_test_start(environment: Any, **_: Any) -> None:
    runner = environment.runner
    if users.store is None or isinstance(runner, WorkerRunner):
        return
    known = list(users.store.first(runner.target_user_count).items())
    if not isinstance(runner, MasterRunner):
        users.waiting.update(known)
        return
    workers = sorted(worker.id for worker in runner.clients.all)  # the order in which Locust distributes users
    for place, worker in enumerate(workers):
        runner.send_message(_MESSAGE, dict(known[place :: len(workers)]), worker)


def _on_report(client_id: str, data: dict[str, Any], **_: Any) -> None:
    data[_MESSAGE] = users.report()


def _on_worker_report(client_id: str, data: dict[str, Any], **_: Any) -> None:
    texts = data.pop(_MESSAGE, {})
    if users.store is not None:
        users.store.put(texts)


def _on_quit(**_: Any) -> None:
    if users.store is not None:
        users.store.put(users.report())  # without a master, this process has all keys
        users.store.close()


events.init_command_line_parser.add_listener(_add_arguments)
events.init.add_listener(_on_init)
events.test_start.add_listener(_on_test_start)
events.report_to_master.add_listener(_on_report)
events.worker_report.add_listener(_on_worker_report)
events.quit.add_listener(_on_quit)


class SecurityKeyUser(FastHttpUser):
    """A user with a security key.

    origin        origin of the page. Default: the service's (--host).
    paths         the service's four endpoints: options and response of a registration, and of a sign-in. They accept
                  and return JSON; options are requested with {"name": NAME}.
    key_options   options of SecurityKey, such as {"presence_delay_ms": 2000, "clock": "real"} for users who take 2 s.
    """

    abstract = True
    origin = ""
    paths = ("/register/options", "/register", "/login/options", "/login")
    key_options: dict[str, Any] = {}
    name = ""
    key: SecurityKey
    browser: Browser
    ceremonies = 0

    def on_start(self) -> None:
        """Continues as a user of an earlier run, or registers as a new user."""
        if users.waiting:
            name, text = users.waiting.popitem()
            self._set_user(name, SecurityKey.loads(text, sign_count_margin=COUNTER_MARGIN, **self._get_options()), text)
        else:
            self.sign_up()

    def on_stop(self) -> None:
        """Returns the user to the process."""
        if self.name:
            users.give_back(self.name)
            self.name = ""

    def sign_up(self) -> None:
        """Becomes a new user, and registers a new key."""
        name, key = str(uuid.uuid4()), SecurityKey(**self._get_options())
        browser = key.browser(self.origin or str(self.host))
        with self._time_ceremony("register", key):
            options = self._post(self.paths[0], {"name": name})
            response = self._call_key("create", browser.create, options)
            self._post(self.paths[1], response)
            self.on_stop()
            self._set_user(name, key)
            self.browser = browser

    def sign_in(self) -> None:
        """Signs in, or signs up if there is no user yet."""
        if not self.name:
            self.sign_up()
            return
        with self._time_ceremony("sign in", self.key):
            options = self._post(self.paths[2], {"name": self.name})
            response = self._call_key("get", self.browser.get, options)
            self._post(self.paths[3], response)

    def _get_options(self) -> dict[str, Any]:
        return {"record": bool(self.environment.parsed_options.failed_logs), **self.key_options}

    def _set_user(self, name: str, key: SecurityKey, text: str = "") -> None:
        self.name, self.key, self.browser = name, key, key.browser(self.origin or str(self.host))
        users.take(name, key, text)

    def _post(self, path: str, body: Any) -> Any:
        with self.client.post(path, json=body, catch_response=True) as response:
            if response.status_code == 200:
                response.success()
                return response.json()
            # Locust groups failures by their text, so numbers are replaced.
            message = re.sub(r"\d+", "N", (response.text or str(response.error)).strip())[:_MAX_TEXT]
            response.failure(message)
            raise ServiceError(f"{path}: {response.status_code} {message}")

    def _call_key(self, name: str, call: Callable[[Any], Any], options: Any) -> Any:
        """Calls the key. The time is reported in a separate line of Locust's statistics, KEY."""
        started = time.perf_counter()
        try:
            response = call(options)
        except Exception as error:
            self._fire_event("KEY", name, started, error)
            raise
        self._fire_event("KEY", name, started, None)
        return response

    @contextmanager
    def _time_ceremony(self, name: str, key: SecurityKey) -> Iterator[None]:
        """Measures a whole ceremony. If the ceremony fails, counts a failure and saves the recording."""
        started = time.perf_counter()
        self.ceremonies += 1
        try:
            yield
        except Exception as error:
            self._fire_event("CEREMONY", name, started, error)
            self._append_log(key, f"failed: {type(error).__name__}: {error}")
        else:
            self._fire_event("CEREMONY", name, started, None)
            every = self.environment.parsed_options.sampled_logs
            if every and self.ceremonies % every == 0:
                self._append_log(key, "a sample")
        if self.ceremonies % CEREMONIES_RECORDED == 0 and self._get_options()["record"]:
            key.clear_recordings()

    def _append_log(self, key: SecurityKey, why: str) -> None:
        """Saves the recording of a key, if --failed-logs is set."""
        folder = self.environment.parsed_options.failed_logs
        if folder:
            Path(folder).mkdir(parents=True, exist_ok=True)
            key.add_comment(why)
            key.save_log(Path(folder, f"{os.getpid()}_{uuid.uuid4()}.log"))

    def _fire_event(self, kind: str, name: str, started: float, error: Exception | None) -> None:
        """Adds an event to Locust's statistics. A browser error is counted by its DOM name."""
        self.environment.events.request.fire(
            request_type=kind,
            name=name,
            response_time=(time.perf_counter() - started) * 1000,
            response_length=0,
            exception=error,
            context={},
        )
