"""Which glibc a library needs, as the build reads it, and what a wheel's name tells of it."""

from __future__ import annotations

import re
import runpy
import shutil
import struct
import subprocess
import unittest
from pathlib import Path
from typing import Optional, Sequence

import header
import zaklimot

NEEDS = runpy.run_path(str(header.TOP / "python" / "needs.py"))
glibc_of, platforms = NEEDS["glibc_of"], NEEDS["platforms"]
# Where the program lies in memory: not where it lies in the file.
BASE = 0x40_0000
Need = tuple[str, Sequence[str]]


def elf(needs: Sequence[Need], is_long: bool = True, order: str = "<") -> bytes:
    """A shared library that needs libraries, each with versions, and has nothing else."""
    strings, parts = b"\0", b""

    def named(text: str) -> int:
        nonlocal strings
        strings += text.encode("ascii") + b"\0"
        return len(strings) - len(text) - 1

    libraries = [named(library) for library, _ in needs]
    versioned = [(at, names) for at, (_, names) in zip(libraries, needs) if names]
    for number, (at, names) in enumerate(versioned):
        size = 16 * (1 + len(names))
        last = number == len(versioned) - 1
        parts += struct.pack(f"{order}HHIII", 1, len(names), at, 16, 0 if last else size)
        for place, name in enumerate(names):
            behind = 0 if place == len(names) - 1 else 16
            parts += struct.pack(f"{order}IHHII", 7, 0, 2, named(name), behind)
    form, size = ("QQ", 16) if is_long else ("II", 8)
    head, program = (64, 56) if is_long else (52, 32)
    begin = head + 2 * program
    entries = [(1, at) for at in libraries] + [(5, 0)] + ([(0x6FFF_FFFE, 0)] if parts else [])
    dynamic = begin, size * (len(entries) + 1)
    places = {0x6FFF_FFFE: sum(dynamic), 5: sum(dynamic) + len(parts)}
    body = b"".join(
        struct.pack(order + form, kind, BASE + places[kind] if kind in places else value)
        for kind, value in [*entries, (0, 0)]
    )
    whole = begin + len(body) + len(parts) + len(strings)
    front = b"\x7fELF" + bytes((2 if is_long else 1, 1 if order == "<" else 2, 1)) + bytes(9)
    if is_long:
        front += struct.pack(f"{order}HHIQQQIHHHHHH", 3, 62, 1, 0, 64, 0, 0, 64, 56, 2, 0, 0, 0)
        front += struct.pack(f"{order}IIQQQQQQ", 1, 4, 0, BASE, BASE, whole, whole, 4096)
        front += struct.pack(f"{order}IIQQQQQQ", 2, 4, begin, BASE + begin, 0, len(body), 0, 8)
    else:
        front += struct.pack(f"{order}HHIIIIIHHHHHH", 3, 3, 1, 0, 52, 0, 0, 52, 32, 2, 0, 0, 0)
        front += struct.pack(f"{order}IIIIIIII", 1, 0, BASE, BASE, whole, whole, 4, 4096)
        front += struct.pack(f"{order}IIIIIIII", 2, begin, BASE + begin, 0, len(body), 0, 4, 8)
    return front + body + parts + strings


def told_by_readelf(library: str) -> Optional[tuple[int, int]]:
    """The same of Debian's readelf."""
    words = ["readelf", "--wide", "--version-info", library]
    told = subprocess.run(words, capture_output=True, text=True, check=True).stdout
    needed = re.findall(r"Name: GLIBC_(\d+)\.(\d+)", told.partition("Version needs section")[2])
    return max((int(major), int(minor)) for major, minor in needed) if needed else None


class Glibc(unittest.TestCase):
    def test_each_kind_of_file(self) -> None:
        needs: list[Need] = [
            ("libm.so.6", ["GLIBC_2.29"]),
            ("libc.so.6", ["GLIBC_2.2.5", "GLIBC_2.14", "GLIBC_2.4"]),
            ("ld-linux-x86-64.so.2", []),
        ]
        for is_long in (True, False):
            for order in "<>":
                with self.subTest(is_long=is_long, order=order):
                    self.assertEqual(glibc_of(elf(needs, is_long, order)), (2, 29))
                    self.assertEqual(glibc_of(elf(needs[1:], is_long, order)), (2, 14))
                    self.assertEqual(glibc_of(elf([("libc.so.6", [])], is_long, order)), (0, 0))

    def test_the_library_in_use(self) -> None:
        path = zaklimot.library_path()
        version = glibc_of(Path(path).read_bytes())
        self.assertIsNotNone(version)
        if shutil.which("readelf"):
            self.assertEqual(version, told_by_readelf(path))

    def test_what_no_glibc_has(self) -> None:
        good: Need = ("libc.so.6", ["GLIBC_2.17"])
        self.assertEqual(glibc_of(elf([good])), (2, 17))
        relative: Need = ("libc.so.6", ["GLIBC_2.17", "GLIBC_ABI_DT_RELR"])
        self.assertEqual(glibc_of(elf([relative])), (2, 36))
        foreign: tuple[list[Need], ...] = (
            [good, ("libz.so.1", [])],
            [good, ("ld-linux", [])],
            [("libc.so.6", ["GLIBC_2.17", "GLIBC_PRIVATE"])],
            [("libc.so.6", ["GLIBC_2"])],
            [("libc.musl-x86_64.so.1", [])],
            [],
        )
        for needs in foreign:
            with self.subTest(needs):
                self.assertIsNone(glibc_of(elf(needs)))

    def test_other_bytes(self) -> None:
        whole = elf([("libc.so.6", ["GLIBC_2.17", "GLIBC_2.18"])])
        for length in range(len(whole)):
            self.assertIsNone(glibc_of(whole[:length]), length)
        for other in (b"", b"MZ" + bytes(100), b"\x7fELF", b"\x7fELF\2\1" + bytes(200)):
            self.assertIsNone(glibc_of(other))


class Names(unittest.TestCase):
    def test_the_names_of_platforms(self) -> None:
        for word, version, name in (
            ("linux_x86_64", (2, 14), "manylinux_2_14_x86_64.manylinux2014_x86_64"),
            ("linux_x86_64", (2, 2), "manylinux_2_5_x86_64.manylinux1_x86_64"),
            ("linux_x86_64", (2, 12), "manylinux_2_12_x86_64.manylinux2010_x86_64"),
            ("linux_x86_64", (2, 17), "manylinux_2_17_x86_64.manylinux2014_x86_64"),
            ("linux_x86_64", (2, 34), "manylinux_2_34_x86_64"),
            ("linux_i686", (2, 6), "manylinux_2_6_i686.manylinux2010_i686"),
            ("linux_aarch64", (0, 0), "manylinux_2_17_aarch64.manylinux2014_aarch64"),
            ("linux_aarch64", (2, 36), "manylinux_2_36_aarch64"),
            ("linux_x86_64", None, "linux_x86_64"),
            ("linux_sparc", (2, 14), "linux_sparc"),
            ("macosx_11_0_arm64", (2, 14), "macosx_11_0_arm64"),
            ("win_amd64", None, "win_amd64"),
        ):
            self.assertEqual(platforms(word, version), name)


if __name__ == "__main__":
    unittest.main()
