"""The files that are made with the page: the package's module and font, and the examples of one
file, which carry both."""

from __future__ import annotations

import re
from pathlib import Path

from zaklimot.commands import TOP
from zaklimot.commands.core.processes import check_program, ended_well
from zaklimot.commands.core.streams import to_read, write_file
from zaklimot.commands.core.trouble import Trouble
from zaklimot_dev.library.making import FONTS

from .packing import in_base64


# The package for JavaScript, which the page stands on, and the examples that do.
FOLDER = TOP / "javascript"
EXAMPLES = TOP / "examples" / "web"
MODULE = "zaklimot.wasm"
# Of an example that browsers load from a server, one is made that carries all.
ONE_FILE = "-one-file"
SCRIPT = re.compile(r'<script type="module">\n(.*?)</script>\n', re.S)
# What the script of such a page finds: the bytes that `load` takes.
CARRIED = """<script>
// This page is made of {name} by `tools/vga-page make`. It carries the module and the font.
const bytes = text => Uint8Array.from(atob(text), letter => letter.charCodeAt(0));
globalThis.carried = {{ module: bytes("{module}"),
  fonts: bytes("{fonts}") }};
</script>
<script type="module">
{script}</script>
"""
ESBUILD = "esbuild"
WORDS = (
    "--bundle",
    "--format=esm",
    "--charset=utf8",
    "--define:import.meta.url=null",
    "--log-level=warning",
    "--color=false",
)
# The joining takes a fraction of a second.
MOST_SECONDS = 60


def one_file(example: Path, module: bytes) -> bytes:
    """A page of one file, of an example whose script imports the package."""
    check_program(ESBUILD)
    text = Path(to_read(str(example))).read_text("utf-8")
    found = SCRIPT.search(text)
    if not found:
        raise Trouble("it has no script that is a module", str(example))
    done = ended_well(
        [ESBUILD, *WORDS], example.parent, given=found[1].encode("utf-8"), seconds=MOST_SECONDS
    )
    if done.errors:
        raise Trouble(done.said().strip(), str(example))
    carried = CARRIED.format(
        name=example.name,
        module=in_base64(module),
        fonts=in_base64(FONTS.read_bytes()),
        script=done.output.decode("utf-8"),
    )
    return (text[: found.start()] + carried + text[found.end() :]).encode("utf-8")


def made_files(module: bytes) -> dict[Path, bytes]:
    """What the files that are made have in them."""
    pages = [path for path in sorted(EXAMPLES.glob("*.html")) if not path.stem.endswith(ONE_FILE)]
    return {
        FOLDER / MODULE: module,
        FOLDER / FONTS.name: FONTS.read_bytes(),
        **{path.with_stem(path.stem + ONE_FILE): one_file(path, module) for path in pages},
    }


def _is_kept(path: Path, data: bytes) -> bool:
    return path.exists() and path.read_bytes() == data


def _name(path: Path) -> str:
    return "/".join(path.parts[-2:])


def others(module: bytes) -> list[str]:
    """The names of those files that are lacking, or that have something else in them."""
    return [_name(path) for path, data in made_files(module).items() if not _is_kept(path, data)]


def write_files(module: bytes) -> list[str]:
    """Writes the files that are not as they should be, and answers their names."""
    written = {path: data for path, data in made_files(module).items() if not _is_kept(path, data)}
    for path, data in written.items():
        write_file(str(path), data)
    return [_name(path) for path in written]


def sources() -> list[Path]:
    """The package's scripts, which the page is made of too."""
    return sorted((*FOLDER.glob("*.js"), *(FOLDER / "src").glob("*.js")))
