#!/usr/bin/env python3
"""Compares the example on each library's page with the test in crates/doc_examples from which it is taken.

    tests/examples_shown.py            prints the pages that differ; exit status 1 if there are any
    tests/examples_shown.py --write    updates the examples from the tests

A page is the comment at the top of a `lib.rt`. It refers to its test: `An example, which the gate runs (FILE)`. The
first code block of the page contains the lines of this file after the imports, in order, without the lines that make
them a test: `#[test]`, the function's head and closing brace, and a final `Ok(())`. White space may differ, because `rt
fmt` formats the test but not the page.
"""

from __future__ import annotations

import re
import sys
import textwrap
from pathlib import Path

TOP = Path(__file__).resolve().parent.parent
EXAMPLE_LINK = re.compile(r"An example, which the gate runs \(`([^`]+)`\):")
CODE_BLOCK = re.compile(r"(?<=//! ```text\n)(?://!.*\n)*?(?=//! ```\n)")
# A test function. Its body is between the opening brace and a line that consists of the closing brace.
TEST_FUNCTION = re.compile(r"#\[test\]\nfn [^\n]*\{\n(.*?)^\}\n", re.MULTILINE | re.DOTALL)


def read_example(test: str) -> str:
    """Returns the example in a test file, as a page shows it."""
    kept = [line for line in test.splitlines(keepends=True) if not line.startswith(("//!", "use "))]
    text = TEST_FUNCTION.sub(lambda found: textwrap.dedent(found[1]).removesuffix("Ok(())\n"), "".join(kept))
    return re.sub(r"\n{3,}", "\n\n", text).strip("\n") + "\n"


def to_comment(text: str) -> str:
    """Returns a text formatted as a page's comment."""
    return "".join(f"//! {line}".rstrip() + "\n" for line in text.splitlines())


def remove_layout(comment: str) -> str:
    """Returns a page's comment without white space."""
    return "".join(line.removeprefix("//!") for line in "".join(comment.split(" ")).split())


def main(write: bool) -> int:
    pages = [
        page
        for page in sorted(TOP.glob("crates/*/src/lib.rt"))
        if EXAMPLE_LINK.search(page.read_text(encoding="utf-8"))
    ]
    differ = 0
    for page in pages:
        text = page.read_text(encoding="utf-8")
        named = EXAMPLE_LINK.search(text)
        block = CODE_BLOCK.search(text, named.end()) if named else None
        if not named or not block:
            sys.exit(f"tests/examples_shown.py: {page.relative_to(TOP)} shows no example")
        shown = to_comment(read_example((TOP / named[1]).read_text(encoding="utf-8")))
        if remove_layout(block[0]) == remove_layout(shown):
            continue
        differ += 1
        if write:
            page.write_text(text[: block.start()] + shown + text[block.end() :], encoding="utf-8")
        else:
            print(f"{page.relative_to(TOP)}: the example differs from {named[1]}")
    print(f"{len(pages)} pages, {differ} {'written' if write else 'that differ'}")
    return 1 if differ and not write else 0


if __name__ == "__main__":
    if sys.argv[1:] not in ([], ["--write"]):
        sys.exit(__doc__)
    sys.exit(main(sys.argv[1:] == ["--write"]))
