"""Mutants of the reference authenticator: each replaces a method by a wrong one."""

from __future__ import annotations

from typing import Any, Callable, Dict, NamedTuple, Tuple

from hidlog_conformance.reference.authenticator import Authenticator
from hidlog_conformance.reference.traits import DeviceTraits

Change = Callable[[Authenticator], None]


class Mutant(NamedTuple):
    """A mutant: its name, the section it violates, and the change that makes it."""

    name: str
    section: str
    description: str
    change: Change
    # Traits that differ from those of the plain reference authenticator.
    traits: DeviceTraits = DeviceTraits()
    # The reason why no case detects the mutant, if so.
    missed: str = ""


def resolve_path(authenticator: Authenticator, path: str) -> Tuple[Any, str]:
    """Returns the object and the method's name of a path such as `transport.cancel`."""
    *parts, name = path.split(".")
    owner: Any = authenticator
    for part in parts:
        owner = getattr(owner, part)
    return owner, name


def replace_method(path: str, body: Callable[..., Any]) -> Change:
    """Returns a change that replaces a method: `body` gets the authenticator and the arguments."""

    def plant(authenticator: Authenticator) -> None:
        owner, name = resolve_path(authenticator, path)
        setattr(owner, name, lambda *words: body(authenticator, *words))

    return plant


def plant_once(owner: Any, name: str, body: Callable[..., Any], method: Callable[..., Any]) -> None:
    """Replaces a method unless it was replaced by the same body, before a power cycle."""
    if getattr(getattr(owner, name), "planted", None) is not body:
        setattr(method, "planted", body)
        setattr(owner, name, method)


def change_result(path: str, change: Callable[..., Any]) -> Change:
    """Returns a change of a method's result: `change` gets the authenticator, the result and the arguments."""

    def plant(authenticator: Authenticator) -> None:
        owner, name = resolve_path(authenticator, path)
        old = getattr(owner, name)
        plant_once(owner, name, change, lambda *words: change(authenticator, old(*words), *words))

    return plant


def wrap_method(path: str, body: Callable[..., Any]) -> Change:
    """Returns a change that wraps a method: `body` gets the authenticator, the old method and the arguments."""

    def plant(authenticator: Authenticator) -> None:
        owner, name = resolve_path(authenticator, path)
        old = getattr(owner, name)
        plant_once(owner, name, body, lambda *words: body(authenticator, old, *words))

    return plant


def combine(*changes: Change) -> Change:
    """Returns a change that combines several."""

    def plant(authenticator: Authenticator) -> None:
        for change in changes:
            change(authenticator)

    return plant


def with_traits(**traits: Any) -> Change:
    """Returns a change that gives the authenticator other traits, which getInfo does not show."""

    def plant(authenticator: Authenticator) -> None:
        changed = DeviceTraits(**{**vars(authenticator.traits), **traits})
        authenticator.transport.traits = changed
        authenticator.requests.traits = changed

    return plant


def change_member(path: str, key: Any, value: Any) -> Change:
    """Returns a change of a member in the map that a method returns; None removes it."""

    def change(authenticator: Authenticator, item: Dict[Any, Any], *words: Any) -> Dict[Any, Any]:
        found = dict(item)
        if value is None:
            found.pop(key, None)
        else:
            found[key] = value(item.get(key)) if callable(value) else value
        return found

    return change_result(path, change)
