"""The page of what is proved: each name that it gives is one of the crates', or a file."""

from __future__ import annotations

import re
import unittest
from functools import lru_cache
from typing import Iterator, NamedTuple

from .tools import TOOLS, TOP, hold

CRATES = TOP / "crates"
PAGE = (TOP / "docs" / "PROOFS.md").read_text("utf-8")
# What a file of specs/ or proofs/ declares, and a file of src/. A variant of an enum has a line of
# its own.
SPECIFIED = re.compile(r"^(?:\w+ )*pub (?:record |data )?(\w+)", re.M)
CODED = re.compile(
    r"\b(?:fn|struct|enum|trait|type|const) (\w+)|^ {4}([A-Z]\w+)(?:\(\w+\))?,$", re.M
)
# A crate's definitions, and its calls, with their names: as the page's tables have them.
NAMES = r"((?:`[\w:]+`(?:, (?:and )?)?)+)"
IN_SPECS = re.compile(r"\]\(\.\./crates/(\w+)/specs\): " + NAMES)
IN_CRATE = re.compile(r"(?<!crates/)`(\w+)`: " + NAMES)
# What the page names of others: programs, and libraries of Rust; and jobs of the program `vga`.
OTHERS = {
    *("ar", "ld", "objcopy", "rt", "wasm-opt", "wasm2c"),
    *("anyhow", "arrayvec", "byteorder", "clap", "hex", "itoa", "md5", "rand_core", "rand_pcg"),
    *("thiserror", "Send", "flush"),
    *("asm", "dis", "go"),
}


class Crate(NamedTuple):
    """The names that a crate declares in specs/ and proofs/, and in src/."""

    specified: frozenset[str]
    coded: frozenset[str]


def crates() -> list[str]:
    """The names of the crates."""
    return sorted(path.name for path in CRATES.iterdir() if (path / "src").is_dir())


@lru_cache(maxsize=None)
def declared(crate: str) -> Crate:
    """What a crate declares."""
    folder = CRATES / crate
    specs = [
        path.read_text("utf-8")
        for part in ("specs", "proofs")
        for path in folder.glob(f"{part}/**/*.antt")
    ]
    sources = [path.read_text("utf-8") for path in folder.glob("src/**/*.rt")]
    return Crate(
        frozenset(name for text in specs for name in SPECIFIED.findall(text)),
        frozenset(
            name for text in sources for names in CODED.findall(text) for name in names if name
        ),
    )


def names_in(text: str) -> list[str]:
    """What stands between back quotes."""
    return re.findall(r"`([^`]+)`", text)


def is_there(name: str) -> bool:
    """Whether a name is a crate, or is declared by one, or is a file or a test, or another's."""
    word = name.split()[0]
    if word in OTHERS or "/" in word:
        return word in OTHERS or any(
            (folder / word).exists() for folder in (TOP, CRATES / "vga_run")
        )
    first, *parts = word.split("::")
    if first in crates():
        return set(parts) <= declared(first).coded
    known = [declared(crate) for crate in crates()]
    return (TOOLS / "tests" / f"{word}.py").exists() or all(
        any(part in one.specified | one.coded for one in known) for part in (first, *parts)
    )


def gone(text: str) -> Iterator[str]:
    """The names of a page that nothing has; those of a table that their crate doesn't have."""
    yield from (name for name in names_in(text) if not is_there(name))
    for crate, names in IN_SPECS.findall(text):
        known = declared(crate)
        # A definition may be a type that the code has.
        yield from (name for name in names_in(names) if name not in known.specified | known.coded)
    for crate, names in IN_CRATE.findall(text):
        for name in names_in(names):
            yield from (part for part in name.split("::") if part not in declared(crate).coded)


class Names(unittest.TestCase):
    def test_each_is_there(self) -> None:
        self.assertGreater(len(names_in(PAGE)), 250)
        self.assertGreater(len(IN_SPECS.findall(PAGE)), 15)
        self.assertGreater(len(IN_CRATE.findall(PAGE)), 15)
        self.assertEqual(list(gone(PAGE)), [])

    def test_one_that_is_gone_is_found(self) -> None:
        specs = "[specs](../crates/vga_run/specs)"
        hold(
            self,
            lambda text: list(gone(text)),
            (
                ("A law (`no_such_law`).", ["no_such_law"]),
                ("`vga_run::run`, `vga_run::walk`", ["vga_run::walk"]),
                ("`Machine::save`, `Machine::lose`", ["Machine::lose"]),
                ("`tools/vga-fuzz --help`, `tools/vga-none --help`", ["tools/vga-none --help"]),
                # These are there, and in another crate.
                ("| `vga_run`: `run`, `int10` |", ["int10"]),
                (f"| {specs}: `report_of`, `dot_colour` |", ["dot_colour"]),
            ),
        )
