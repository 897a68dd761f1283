"""The key's script for pages, with the proxy's functions."""

from __future__ import annotations

from functools import lru_cache
from pathlib import Path

from .errors import DriverError

_PACKAGE_FOLDER = Path(__file__).parent
# In an installed package, and in a clone.
_KEY_SCRIPTS = (_PACKAGE_FOLDER / "security_key.js", _PACKAGE_FOLDER.parents[3] / "web" / "dist" / "security_key.js")


@lru_cache(maxsize=1)
def read_script() -> str:
    """Returns the key's script for pages, with the proxy's functions."""
    for path in _KEY_SCRIPTS:
        if path.is_file():
            page = (_PACKAGE_FOLDER / "page.js").read_text(encoding="utf-8")
            return f"{path.read_text(encoding='utf-8')}\n{page}\nglobalThis.hidlogPage = hidlogPage;\n"
    raise DriverError("unknown error", "security_key.js is missing in this package")
