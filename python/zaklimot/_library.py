"""Finding the library and the font file, and keeping the one library of this process."""

from __future__ import annotations

import os
import sys
from functools import lru_cache
from pathlib import Path
from typing import Iterator, Mapping, NamedTuple, Optional, Union

from ._calls import Call, bind_all
from ._errors import LibraryMissing
from ._file import FILE, FONTS
from ._structs import FONTS_SIZE
from ._version import API_MAJOR, API_MINOR

Bytes = Union[bytes, bytearray, memoryview]
# A font file's bytes, or its path; None means the project's font.
Fonts = Union[Bytes, str, "os.PathLike[str]", None]

# What the system's loader is asked for.
SONAME = {"darwin": f"libzaklimot.{API_MAJOR}.dylib", "win32": FILE}.get(
    sys.platform, f"{FILE}.{API_MAJOR}"
)
# What a wheel carries.
CARRIED = Path(__file__).resolve().parent / "carried"
USUAL_PREFIXES = ("/usr/local", "/usr")
# How many folders above this file the repository begins, if the package is used from its sources.
LEVELS = 2

HOW = """`pip install ./python` builds a package that has it. Or compile it, at the top of
the repository, and name the file:
    cc -O2 -fPIC -shared -Iinclude portable/zaklimot.c -o libzaklimot.so
    export ZAKLIMOT_LIBRARY=$PWD/libzaklimot.so
Or make the proved one there, or unpack a release, and name the folder:
    tools/vga-library make kit
    export ZAKLIMOT_DIR=$PWD/kit
Or install that by `tools/vga-library install`."""


class Loaded(NamedTuple):
    """The loaded library: its file, its calls by their names without `zak_`, and its version."""

    path: str
    calls: Mapping[str, Call]
    version: tuple[int, int]


def _below(prefix: Path) -> Iterator[Path]:
    """The library's files below a prefix: in lib, or in its folder for this kind of machine."""
    yield from (path for path in (prefix / "lib" / FILE, prefix / "lib64" / FILE) if path.is_file())
    yield from sorted((prefix / "lib").glob(f"*-linux-gnu/{FILE}"))


def _named() -> Optional[Path]:
    """The file that the environment names. It is used or refused; no other is looked for."""
    file, folder = os.environ.get("ZAKLIMOT_LIBRARY"), os.environ.get("ZAKLIMOT_DIR")
    if file:
        if not os.path.isfile(file):
            raise LibraryMissing(f"ZAKLIMOT_LIBRARY is {file}, and there is no such file. {HOW}")
        return Path(file)
    if folder:
        found = next(_below(Path(folder)), None)
        if found is None:
            raise LibraryMissing(
                f"ZAKLIMOT_DIR is {folder}, and there is no lib/{FILE} in it. {HOW}"
            )
        return found
    return None


def _found() -> str:
    """The path of the library, or only its name if the system's loader has to find it."""
    named = _named()
    if named is not None:
        return str(named.absolute())
    prefixes = (Path(prefix) for prefix in (sys.prefix, *USUAL_PREFIXES))
    places = [CARRIED / FILE, *(path for prefix in prefixes for path in _below(prefix))]
    return str(next((path for path in places if path.is_file()), SONAME))


def _fits(version: int) -> bool:
    """Whether a library of this version has all calls that the package makes."""
    return version // 65536 == API_MAJOR and version % 65536 >= API_MINOR


@lru_cache(maxsize=None)
def loaded() -> Loaded:
    """The library, loaded at the first call.

    Raises LibraryMissing if there is none, or only one of another version.
    """
    path = _found()
    try:
        calls = bind_all(path)
        version = calls["version"]()
    except OSError as error:
        reason = f"there is no {SONAME}" if path == SONAME else f"{path} can't be loaded: {error}"
        raise LibraryMissing(f"{reason}. {HOW}") from error
    except AttributeError as error:
        reason = f"{path} lacks a call: {error}. This package needs {API_MAJOR}.{API_MINOR}"
        raise LibraryMissing(f"{reason}. {HOW}") from error
    told = (version // 65536, version % 65536)
    if not _fits(version):
        needed = f"{API_MAJOR}.{API_MINOR} or later of {API_MAJOR}"
        raise LibraryMissing(
            f"{path} has version {told[0]}.{told[1]}, and this package needs {needed}. {HOW}"
        )
    return Loaded(path, calls, told)


def _in_sources(own: Path) -> list[Path]:
    """The repository's font, relative to this file. Near the root of the system there is none."""
    return [top / "fonts" / FONTS for top in list(own.parents)[LEVELS : LEVELS + 1]]


def _font_places() -> Iterator[Path]:
    """The places where the project's font may be."""
    for above in list(Path(loaded().path).absolute().parents)[1:3]:
        yield above / "share" / "zaklimot" / FONTS
    yield CARRIED / FONTS
    for prefix in (sys.prefix, *USUAL_PREFIXES):
        yield Path(prefix) / "share" / "zaklimot" / FONTS
    yield from _in_sources(Path(__file__).resolve())


def read_fonts(path: Path) -> bytes:
    """The bytes of a font file, at most one more than it may have."""
    with open(path, "rb") as file:
        return file.read(FONTS_SIZE + 1)


@lru_cache(maxsize=None)
def default_fonts() -> bytes:
    """The project's font, 9,728 bytes: the glyphs of the text modes in 8, 14 and 16 scan lines."""
    for path in _font_places():
        if path.is_file():
            return read_fonts(path)
    raise LibraryMissing(f"there is no {FONTS}: hand over the bytes of a font file as `fonts`")


def font_bytes(fonts: Fonts) -> bytes:
    """A font file's bytes, from its bytes or its path. None means the project's font."""
    if fonts is None:
        return default_fonts()
    if isinstance(fonts, (str, os.PathLike)):
        # `PathLike` may be one of bytes, by its type; the package's says that it is one of text.
        return read_fonts(fonts)  # type: ignore[arg-type]
    return bytes(memoryview(fonts))
