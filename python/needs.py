"""Which glibc a shared library needs, read from its ELF file, and what a wheel's name tells of it.

A wheel for Linux says in its name from which glibc on its library works (PEP 600). A library says
of each symbol that it takes of another one by which version that one has it.
"""

from __future__ import annotations

import re
import struct
from typing import Iterator, NamedTuple, Optional

Version = tuple[int, int]

# The parts of glibc, and the loader's names beside them.
PARTS = frozenset(
    f"lib{name}" for name in ("c.so.6", "m.so.6", "pthread.so.0", "dl.so.2", "rt.so.1")
)
LOADER = re.compile(r"ld(-linux[\w-]*|64)\.so\.\d")
NUMBERED = re.compile(r"GLIBC_(\d+)\.(\d+)(?:\.\d+)?")
# A version that has no number, and the glibc that has it.
RELATIVE = {"GLIBC_ABI_DT_RELR": (2, 36)}
# The first glibc of a wheel's name for each processor, and the other names that pip before 20.3
# knows, each for all processors that begin with its glibc or an earlier one.
FIRST = {"x86_64": (2, 5), "i686": (2, 5), "aarch64": (2, 17), "ppc64le": (2, 17), "s390x": (2, 17)}
OTHER_NAMES = {(2, 5): "manylinux1", (2, 12): "manylinux2010", (2, 17): "manylinux2014"}
# What is read of the file: parts of the program, and entries of the dynamic part.
LOAD, DYNAMIC = 1, 2
NEEDED, STRINGS, VERSIONS = 1, 5, 0x6FFF_FFFE


class _Entry(NamedTuple):
    """An entry of the dynamic part."""

    kind: int
    value: int


class _Elf:
    """A shared library as its ELF file tells of it. A ValueError or struct.error where it is
    none."""

    def __init__(self, data: bytes) -> None:
        if data[:4] != b"\x7fELF":
            raise ValueError("this is no ELF file")
        self._data = data
        self._is_long, self._order = data[4] == 2, ">" if data[5] == 2 else "<"
        self._parts = list(self._program())
        self._entries = list(self._dynamic())
        self._strings = self._places(STRINGS)[0]

    def _read(self, form: str, at: int) -> tuple[int, ...]:
        return struct.unpack_from(self._order + form, self._data, at)

    def _program(self) -> Iterator[tuple[int, int, int, int]]:
        """Kind, offset, address and length of each part of the program."""
        if self._is_long:
            (begin,), (size, count) = self._read("Q", 32), self._read("HH", 54)
        else:
            (begin,), (size, count) = self._read("I", 28), self._read("HH", 42)
        for at in range(begin, begin + size * count, max(size, 1)):
            if self._is_long:
                kind, _, offset, address, _, length = self._read("IIQQQQ", at)
            else:
                kind, offset, address, _, length = self._read("IIIII", at)
            yield kind, offset, address, length

    def _place(self, address: int) -> int:
        """Where in the file lies what the program has at an address."""
        for kind, offset, begin, length in self._parts:
            if kind == LOAD and begin <= address < begin + length:
                return address - begin + offset
        raise ValueError("the program has nothing there")

    def _text(self, at: int) -> str:
        return self._data[at : self._data.index(b"\0", at)].decode("ascii")

    def _dynamic(self) -> Iterator[_Entry]:
        form, size = ("QQ", 16) if self._is_long else ("II", 8)
        for kind, offset, _, length in self._parts:
            if kind == DYNAMIC:
                for at in range(offset, offset + length, size):
                    yield _Entry(*self._read(form, at))

    def _places(self, kind: int) -> list[int]:
        """Where in the file lies what the entries of a kind name by its address."""
        return [self._place(entry.value) for entry in self._entries if entry.kind == kind]

    def needed(self) -> set[str]:
        """The libraries that it needs."""
        values = (entry.value for entry in self._entries if entry.kind == NEEDED)
        return {self._text(self._strings + value) for value in values}

    def versions(self) -> Iterator[str]:
        """The versions that it needs of them."""
        for at in self._places(VERSIONS):
            step = 1
            while step:
                _, count, _, first, step = self._read("HHIII", at)
                yield from self._names(at + first, count)
                at += step

    def _names(self, at: int, count: int) -> Iterator[str]:
        for _ in range(count):
            *_, name, step = self._read("IHHII", at)
            yield self._text(self._strings + name)
            at += step


def _is_of_glibc(library: str) -> bool:
    return library in PARTS or LOADER.fullmatch(library) is not None


def glibc_of(data: bytes) -> Optional[Version]:
    """The first glibc that has all that a shared library needs.

    None if the bytes are no such library, or it needs what glibc doesn't promise.
    """
    try:
        elf = _Elf(data)
        needed, versions = elf.needed(), set(elf.versions())
    except (struct.error, ValueError, IndexError):
        return None
    if "libc.so.6" not in needed or not all(map(_is_of_glibc, needed)):
        return None
    found = [(0, 0)]
    for name in versions:
        numbers = NUMBERED.fullmatch(name)
        version = (int(numbers[1]), int(numbers[2])) if numbers else RELATIVE.get(name)
        if version is None:
            return None
        found.append(version)
    return max(found)


def platforms(word: str, version: Optional[Version]) -> str:
    """The last part of a wheel's name, of the word for the machine, such as linux_x86_64, and the
    glibc that its library needs."""
    system, _, processor = word.partition("_")
    if version is None or system != "linux" or processor not in FIRST:
        return word
    first = max(version, FIRST[processor])
    names = [f"manylinux_{first[0]}_{first[1]}"]
    names += [OTHER_NAMES[least] for least in sorted(OTHER_NAMES) if least >= first][:1]
    return ".".join(f"{name}_{processor}" for name in names)
