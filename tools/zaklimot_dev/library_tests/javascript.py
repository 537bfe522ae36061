"""The tests of the package for JavaScript, in node, over the library that the package for Python
finds."""

from __future__ import annotations

import re
import sys
from pathlib import Path

from zaklimot.commands import TOP
from zaklimot.commands.core.trouble import Wrong
from zaklimot_dev.page_tests.command import COUNT, REPORTER, run_node


TESTS = TOP / "javascript" / "tests"
# How a file tells that it has tests.
IS_TEST = 'from "node:test"'
# A test that is skipped, and the programs for which one may be.
SKIPPED = re.compile(r"^(?:\x1b\[[0-9]+m)*﹣ .* # (.*?)(?:\x1b\[[0-9]+m)*$", re.M)
MAY_BE_LACKING = re.compile(r"(?:tsc|npm|esbuild|rollup) is not here: install Debian's package \S+")
# So long may the tests take together, where much else runs beside them.
MOST_SECONDS = 900


def check_javascript(library: Path, package: Path) -> str:
    """Each test passes, and none is skipped but for want of a program that a user may lack too.

    `package` has the package for Python, by which the calls are held to the library.
    """
    files = sorted(path for path in TESTS.glob("*.mjs") if IS_TEST in path.read_text("utf-8"))
    environment = {
        "ZAKLIMOT_DIR": str(library),
        "ZAKLIMOT_LIBRARY": "",
        "ZAKLIMOT_PYTHON": sys.executable,
        "PYTHONPATH": str(package),
    }
    words: list[str | Path] = ["--test", "--test-reporter", REPORTER, *files]
    said = run_node(words, environment, MOST_SECONDS)
    counts = dict(COUNT.findall(said))
    passed, skipped = counts.pop("pass", "0"), counts.pop("skipped", "0")
    lacking = sorted(set(SKIPPED.findall(said)))
    wrong = [reason for reason in lacking if not MAY_BE_LACKING.fullmatch(reason)]
    if passed == "0" or set(counts.values()) - {"0"} or wrong or bool(lacking) != (skipped != "0"):
        raise Wrong(f"the tests in node: {passed} pass, {skipped} are skipped, {counts}, {wrong}")
    return "; ".join([f"{passed} tests", *lacking])
