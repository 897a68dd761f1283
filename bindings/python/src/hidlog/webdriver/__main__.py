"""`python -m hidlog.webdriver` is `hidlog webdriver`."""

import sys

from ..entry_point import run
from .command import main

if __name__ == "__main__":
    sys.exit(run("hidlog webdriver", lambda: main(sys.argv[1:])))
