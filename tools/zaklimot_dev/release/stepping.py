"""The archive of single-step tests: elements of all kinds, made for the release, with the loaders
and their page."""

import hashlib
import sys
import tempfile
from pathlib import Path
from typing import Optional

from zaklimot.commands import TOP
from zaklimot.commands.core.processes import Hearer, Word, run
from zaklimot.commands.core.trouble import Trouble
from zaklimot.commands.script.library import NAMED, library_path

from .coverage import seldom_shown
from .words import COUNT, STEPS

# So many commands work at a time, and so many bytes have all files at most.
JOBS = 2
MOST_BYTES = 60_000_000
TOOL = (TOP / "zaklimot", "steps")
# What of the commit lies beside the elements, and where.
PAGE = "docs/STEPS.md"
LOADERS = tuple(
    f"examples/steps/{name}"
    for name in (
        "Cargo.toml",
        "beam.py",
        "loader.c",
        "loader.cpp",
        "loader.py",
        "loader.rs",
        "toy.h",
        "toy.py",
        "toy.rs",
    )
)
# The pages of the rules that elements show, to which that page leads, and their drawings.
RULES = tuple(
    f"docs/{name}"
    for name in (
        "HOST-PATH.md",
        "MODES.md",
        "RASTER.md",
        "REGISTERS.md",
        "REPORT.md",
        "SERVICES.md",
        "pictures/attribute-to-colour.svg",
        "pictures/fetch-address.svg",
        "pictures/host-path-write.svg",
        "pictures/scan-line.svg",
    )
)
ALONE = {
    "tools/zaklimot_dev/release/STEPS.md": "README.md",
    PAGE: "STEPS.md",
    **{place: place.removeprefix("docs/") for place in RULES},
    "LICENSE": "LICENSE",
    "fonts/zaklimot.fnt": "zaklimot.fnt",
    **{place: Path(place).name for place in LOADERS},
}


def seed_of(number: str) -> int:
    """The seed of a release, from its commit's number: no test has seen its elements before."""
    return int(number[:8], 16)


def make_steps(
    number: str, library: Optional[Path], heard: Optional[Hearer] = None, count: int = COUNT
) -> dict[str, bytes]:
    """The files of elements, by their places in the archive, and what they are made of.

    The library that makes them is the proved one, if it is given. Each rule must be shown often
    enough, if the kinds have all their elements, and the files must not be too large.
    """
    path = library or Path(library_path())
    seed = str(seed_of(number))
    made_of = hashlib.sha256(path.read_bytes()).hexdigest()
    with tempfile.TemporaryDirectory(prefix="vga-release-") as name:
        folder = Path(name) / STEPS
        words: list[Word] = [sys.executable, *TOOL, "make", folder]
        words += ["--count", str(count), "--seed", seed]
        run([*words, "--jobs", str(JOBS)], heard=heard, environment={NAMED: str(path)})
        if count >= COUNT:
            for told in seldom_shown(sorted(folder.glob("*.json.gz")), JOBS):
                raise Trouble(f"the elements show a branch too seldom: {told}")
        paths = (path for path in sorted(folder.rglob("*")) if path.is_file())
        files = {f"{STEPS}/{path.relative_to(folder)}": path.read_bytes() for path in paths}
    size = sum(map(len, files.values()))
    if size > MOST_BYTES:
        raise Trouble(f"the elements have {size:,} bytes, and {MOST_BYTES:,} are the most")
    told = f"commit {number}\nseed {seed}\ncount {count}\nlibrary sha256 {made_of}\n"
    return {**files, "MADE-OF": told.encode("ascii")}
