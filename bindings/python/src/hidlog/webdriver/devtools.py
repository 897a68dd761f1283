"""Controls a browser with the DevTools protocol: runs a script in all documents, and exchanges messages between the
documents and the proxy.

The browser reports the document of a message and the document's origin, so a page cannot claim another origin.
"""

from __future__ import annotations

import json
import re
import threading
import time
import urllib.request
from collections.abc import Callable, Iterator
from concurrent.futures import Future
from concurrent.futures import TimeoutError as FutureTimeoutError
from contextlib import suppress
from typing import Any

from .errors import DriverError, parse_json, print_error
from .websocket import WebSocket

Json = dict[str, Any]
BINDING = "hidlogChannel"
_TIMEOUT_SECONDS = 15
# Maximum length of a message. A page reports a whole recording in one message.
_MAX_PAYLOAD = 16 * 1024 * 1024
_ORIGIN = re.compile(r"https?://[^/]+\Z")
_TARGETS = ("page", "iframe", "webview")
_DEBUGGER_ADDRESS = re.compile(r"(localhost|127\.0\.0\.1|\[::1\]):([0-9]{1,5})\Z")


class Document:
    """A document with an origin. Its attributes are reported by the browser."""

    def __init__(self, target: str, number: int, unique_id: str, origin: str):
        self.target, self.number, self.unique_id, self.origin = target, number, unique_id, origin
        # ID of the page's object with the library, kept when the key is removed from the document.
        self.library: str | None = None


Receive = Callable[[Document, str], None]


class _Target:
    """A page, or a frame in a separate process."""

    def __init__(self) -> None:
        self.has_dialog = False
        # Whether new documents load the library, and the ID of the script that they run after it.
        self.has_library = False
        self.start: str | None = None


class DevTools:
    """A connection to a browser. While a script is installed, each document loads the library and runs the script. The
    library is long, so it is sent only once. It does nothing in documents without the channel."""

    def __init__(self, address: str, window: str, receive: Receive, library: str):
        self._receive, self._library = receive, library
        self._lock = threading.Lock()
        self._last = 0
        self._waiting: dict[int, Future[Json]] = {}
        self._targets: dict[str, _Target] = {}
        self._documents: dict[tuple[str, int], Document] = {}
        self._start: str | None = None
        self.failure: DriverError | None = None
        self._begun: list[Future[Json]] = []
        self._socket = WebSocket(_read_url(address), _TIMEOUT_SECONDS)
        self._reader = threading.Thread(target=self._read, daemon=True)
        self._reader.start()
        try:
            found = self._call("Target.getTargets")["targetInfos"]
            if window not in [target.get("targetId") for target in found]:
                raise DriverError("unknown error", f"the browser at {address} does not have the driver's window")
            self._call("Target.setAutoAttach", autoAttach=True, waitForDebuggerOnStart=True, flatten=True)
            self._wait_for(self._begun)
        except BaseException:
            self.close()
            raise

    # Protocol messages.

    def _post(self, method: str, target: str | None = None, **parameters: Any) -> Future[Json]:
        """Sends a command, and returns a future of its result."""
        future: Future[Json] = Future()
        with self._lock:
            if self.failure:
                future.set_exception(self.failure)
                return future
            self._last += 1
            number = self._last
            self._waiting[number] = future
        message: Json = {"id": number, "method": method, "params": parameters}
        if target is not None:
            message["sessionId"] = target
        try:
            self._socket.send(json.dumps(message))
        except OSError as error:
            self._fail(error)
        return future

    def _call(self, method: str, target: str | None = None, **parameters: Any) -> Json:
        """Sends a command, and waits for its result."""
        try:
            return self._post(method, target, **parameters).result(_TIMEOUT_SECONDS)
        except FutureTimeoutError:
            raise DriverError("unknown error", f"the browser did not respond to {method}") from None

    def _wait_for(self, futures: list[Future[Json]]) -> None:
        """Waits for results. A document that no longer exists has no result, and a stopped document has its result
        later."""
        end = time.monotonic() + _TIMEOUT_SECONDS
        for future in futures:
            with suppress(DriverError, FutureTimeoutError):
                future.result(max(0.0, end - time.monotonic()))
        if self.failure:
            raise self.failure

    def _fail(self, error: BaseException) -> None:
        """Lets pending commands fail, and closes the connection, so that no new page waits for the connection."""
        with self._lock:
            self.failure = self.failure or DriverError(
                "unknown error", f"lost the connection to the browser's debugger: {error}"
            )
            waiting, self._waiting = self._waiting, {}
        self._socket.close()
        for future in waiting.values():
            if not future.done():
                future.set_exception(self.failure)

    def _read(self) -> None:
        try:
            while True:
                message = parse_json(self._socket.receive())
                if "id" in message:
                    self._handle_result(message)
                else:
                    self._handle_event(
                        message.get("method", ""), message.get("params", {}), message.get("sessionId", "")
                    )
        except Exception as error:  # pending commands must end, whatever a browser sends
            self._fail(error)

    def _handle_result(self, message: Json) -> None:
        with self._lock:
            future = self._waiting.pop(message["id"], None)
        if future is None:
            return
        if "error" in message:
            future.set_exception(
                DriverError("unknown error", f"the browser returned the error: {message['error'].get('message')}")
            )
        else:
            future.set_result(message.get("result", {}))

    def _handle_event(self, method: str, event: Json, target: str) -> None:
        if method == "Runtime.bindingCalled":
            self._handle_call(event, target)
        elif method == "Runtime.executionContextCreated":
            self._add_document(event["context"], target)
        elif method == "Runtime.executionContextDestroyed":
            self._documents.pop((target, event["executionContextId"]), None)
        elif method == "Runtime.executionContextsCleared":
            self._forget(target)
        elif method == "Target.attachedToTarget":
            self._add_target(event["sessionId"], event["targetInfo"]["type"])
        elif method == "Target.detachedFromTarget":
            self._targets.pop(event["sessionId"], None)
            self._forget(event["sessionId"])
        elif method in ("Page.javascriptDialogOpening", "Page.javascriptDialogClosed") and target in self._targets:
            self._targets[target].has_dialog = method.endswith("Opening")

    def _forget(self, target: str) -> None:
        for key in [key for key in list(self._documents) if key[0] == target]:
            self._documents.pop(key, None)

    def _handle_call(self, event: Json, target: str) -> None:
        document = self._documents.get((target, event["executionContextId"]))
        if event["name"] == BINDING and document and len(event["payload"]) <= _MAX_PAYLOAD:
            try:
                self._receive(document, event["payload"])
            except Exception as error:  # other pages must be served, whatever a page sends
                print_error(f"handling a page's message failed: {error!r}")

    def _add_document(self, context: Json, target: str) -> None:
        if context.get("auxData", {}).get("isDefault") and _ORIGIN.match(context["origin"]):
            key = (target, context["id"])
            self._documents[key] = Document(target, context["id"], context["uniqueId"], context["origin"])

    def _add_target(self, target: str, kind: str) -> None:
        if kind in _TARGETS:
            self._targets[target] = _Target()
            self._begun.append(self._post("Runtime.enable", target))
            self._begun.append(self._post("Page.enable", target))
            self._post("Target.setAutoAttach", target, autoAttach=True, waitForDebuggerOnStart=True, flatten=True)
            start = self._start
            if start is not None:
                self._begin(target, start)
        self._begun.append(self._post("Runtime.runIfWaitingForDebugger", target))
        self._begun = [future for future in self._begun if not future.done()]

    # The script.

    def _begin(self, name: str, start: str) -> list[Future[Json]]:
        """Lets new documents of a target load the library and run the script."""
        target = self._targets[name]
        futures = [self._post("Runtime.addBinding", name, name=BINDING)]
        if not target.has_library:
            target.has_library = True
            futures.append(self._post("Page.addScriptToEvaluateOnNewDocument", name, source=self._library))
        futures.append(self._post("Page.addScriptToEvaluateOnNewDocument", name, source=start))
        futures[-1].add_done_callback(lambda added: self._store_script(name, added))
        return futures

    def _store_script(self, name: str, added: Future[Json]) -> None:
        if not added.exception() and name in self._targets:
            self._targets[name].start = added.result()["identifier"]

    def _run(self, document: Document, start: str) -> list[Future[Json]]:
        """Runs the script in an existing document, after the library if the document does not have it."""
        if document.library is None:
            ran = self.evaluate(document, self._library)
        else:
            parameters = {"objectId": document.library, "functionDeclaration": "function() { this.library(); }"}
            ran = self._post("Runtime.callFunctionOn", document.target, **parameters)
        return [ran, self.evaluate(document, start)]

    def _is_stopped(self, name: str) -> bool:
        """Returns whether a dialog is open, which blocks scripts in a target."""
        target = self._targets.get(name)
        return target is not None and target.has_dialog

    def install(self, start: str) -> None:
        """Runs a script in all documents, including future ones."""
        self._start = start
        started = {name: self._begin(name, start) for name in list(self._targets)}
        running = [(document, self._run(document, start)) for document in self.documents()]
        for name, futures in [*started.items(), *((document.target, futures) for document, futures in running)]:
            if not self._is_stopped(name):
                self._wait_for(futures)

    def uninstall(self, expression: str) -> None:
        """Stops running the script in new documents. In existing documents, evaluates an expression, which returns an
        object with the library."""
        self._start = None
        futures = []
        for name, target in list(self._targets.items()):
            if target.start is not None:
                futures.append(self._post("Page.removeScriptToEvaluateOnNewDocument", name, identifier=target.start))
            target.start = None
            futures.append(self._post("Runtime.removeBinding", name, name=BINDING))
        documents = [(document, self.evaluate(document, expression)) for document in self.documents()]
        futures += [future for document, future in documents if not self._is_stopped(document.target)]
        self._wait_for(futures)
        for document, future in documents:
            has_result = future.done() and not future.exception()
            document.library = future.result().get("result", {}).get("objectId") if has_result else None

    def documents(self) -> Iterator[Document]:
        """Yields the current documents."""
        yield from list(self._documents.values())

    def evaluate(self, document: Document, expression: str) -> Future[Json]:
        """Evaluates an expression in a document."""
        return self._post(
            "Runtime.evaluate", document.target, expression=expression, uniqueContextId=document.unique_id
        )

    def close(self) -> None:
        """Closes the connection. The browser keeps running."""
        self._socket.close()


def _read_url(address: str) -> str:
    """Returns the WebSocket URL of a browser's debugger, which must be on this machine."""
    if not _DEBUGGER_ADDRESS.match(address):
        raise DriverError("unknown error", f"{address!r} is not the address of a debugger on this machine")
    try:
        opener = urllib.request.build_opener(urllib.request.ProxyHandler({}))
        with opener.open(f"http://{address}/json/version", timeout=_TIMEOUT_SECONDS) as response:
            return str(parse_json(response.read(100_000))["webSocketDebuggerUrl"])
    except (OSError, ValueError, KeyError, TypeError) as error:
        raise DriverError(
            "unknown error", f"no valid response from the browser's debugger at {address}: {error}"
        ) from None
