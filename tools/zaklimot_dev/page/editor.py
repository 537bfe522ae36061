"""The editor in the page: CodeMirror, which esbuild joins from the files of Debian's package."""

from __future__ import annotations

import re
from pathlib import Path
from typing import NamedTuple

from zaklimot.commands.core.processes import check_program, ended_well
from zaklimot.commands.core.streams import to_read
from zaklimot.commands.core.trouble import Trouble


ESBUILD = "esbuild"
PACKAGE = "libjs-codemirror"
FOLDER = Path("/usr/share/javascript/codemirror")
COPYRIGHT = Path("/usr/share/doc/libjs-codemirror/copyright")
# The library, and its list of completions.
SCRIPTS = ("lib/codemirror.js", "addon/hint/show-hint.js")
STYLES = ("lib/codemirror.css", "addon/hint/show-hint.css")
NAME = "CodeMirror"
VERSION = re.compile(r"^ *CodeMirror\.version = \"([0-9.]+)\";$", re.M)
HOLDER = re.compile(r"^Files: \*\nCopyright: (.+)\nLicense: Expat$", re.M)
TERMS = re.compile(r"^License: Expat\n((?: .+\n)+)", re.M)
# The joining takes a fraction of a second.
MOST_SECONDS = 60


class Editor(NamedTuple):
    """The editor's script and style, and the versions that they are made of."""

    script: str
    style: str
    made: str


def is_there() -> bool:
    """Whether the package is installed."""
    return (FOLDER / SCRIPTS[0]).exists()


def _source(name: str) -> str:
    path = FOLDER / name
    if not path.exists():
        raise Trouble(f"install the package {PACKAGE}: the page's editor is made of it", str(path))
    return path.read_text("utf-8")


def licence() -> str:
    """The licence's text, with who holds the copyright."""
    text = Path(to_read(str(COPYRIGHT))).read_text("utf-8")
    holder = HOLDER.search(text)
    terms = TERMS.search(text)
    if not holder or not terms:
        raise Trouble("it has no copyright or no licence of all files", str(COPYRIGHT))
    lines = [line[1:].removeprefix(".") for line in terms[1].splitlines()]
    return "\n".join([f"Copyright {holder[1]}", "", *lines])


def _minified(text: str, *words: str) -> str:
    """What esbuild makes of a text whose files lie in the package, wherever this clone lies."""
    done = ended_well(
        [ESBUILD, "--minify", "--charset=utf8", "--log-level=warning", "--color=false", *words],
        FOLDER,
        given=text.encode("utf-8"),
        seconds=MOST_SECONDS,
    )
    if done.errors:
        raise Trouble(done.said().strip(), ESBUILD)
    return done.output.decode("utf-8")


def esbuild_version() -> str:
    """The version of esbuild."""
    check_program(ESBUILD)
    return ended_well([ESBUILD, "--version"], seconds=MOST_SECONDS).output.decode("ascii").strip()


def joined_editor(targets: str) -> Editor:
    """The editor, for browsers from these targets on."""
    found = VERSION.search(_source(SCRIPTS[0]))
    if not found:
        raise Trouble("it tells no version", str(FOLDER / SCRIPTS[0]))
    made = f"{NAME} {found[1]}, joined by esbuild {esbuild_version()}"
    first, *others = (f'require("./{name}");' for name in SCRIPTS)
    entry = f"globalThis.{NAME} = {first}\n" + "\n".join(others)
    script = _minified(entry, "--bundle", "--format=iife", f"--target={targets}")
    style = _minified("\n".join(map(_source, STYLES)), "--loader=css")
    return Editor(f"/*! {NAME} {found[1]}\n{licence()}\n*/\n{script}", style, made)
