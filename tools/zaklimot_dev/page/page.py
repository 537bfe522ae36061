"""Puts the page together: one file of the sources in page/, of the module, the font and the
examples.

Its JavaScript is in modules, so that tests can import each as it stands. esbuild joins them to one
script, which lies in the page.
"""

from __future__ import annotations

import json
import re
import tempfile
from pathlib import Path
from typing import Any, NamedTuple

from zaklimot.commands import TOP
from zaklimot.commands.core.processes import check_program, ended_well
from zaklimot.commands.core.streams import to_read
from zaklimot.commands.core.trouble import Trouble
from zaklimot.commands.core.version import version
from zaklimot_dev.library.making import FONTS
from zaklimot.commands.explain.wordings import WORDINGS
from zaklimot.commands.report.debugging import DOCS, PAGE, data_element

from . import package
from .editor import Editor, joined_editor
from .machine import NOTICE, MachineModules, programs
from .packing import about, in_base64, packed
from .sections import quoted_sections
from .words import MOST_BYTES


SOURCES = PAGE.parent
EXAMPLES = TOP / "examples"
TUTORIAL = DOCS / "TUTORIAL.md"
SCRIPT, STYLE, DATA, MADE = (
    f"<!-- zaklimot:{name} -->" for name in ("script", "style", "data", "made")
)
# From the page as built, where the documentation's pages lie.
PAGES = "../docs/"
ENTRY = "main.js"
FIRST_STYLE = "style.css"
TESTS = "tests"
ESBUILD = "esbuild"
# A script that is joined lies beside no files of the package, so the package reads none: esbuild
# leaves out what would.
NOWHERE = "--define:import.meta.url=null"
# The editor's parts in a page as built.
EDITOR = tuple(
    re.compile(form, re.S)
    for form in (
        r"<script>\n(.*?)</script>",
        r"<style>\n(.*?)</style>",
        r"<!-- The editor of this page is (.*?)\. -->",
    )
)
# The oldest browsers in which the page works: the script says nothing that they don't take.
TARGETS = "chrome103,firefox113,safari16.4"
# The joining takes a fraction of a second.
MOST_SECONDS = 60
SCRIPT_BLOCK = re.compile(r"^```\n(.*?)^```$", re.M | re.S)
TUTORIAL_FILE = re.compile(r"In a terminal: `\./zaklimot run examples/tutorial/([a-z-]+)\.vga")
WORDINGS_HEAD = (
    "// Made of python/zaklimot/commands/explain/wordings.json by\n// "
    "`tools/vga-page wordings page/script/wordings.js`.\n"
    "/** The words for files and bytes that are no script, and the registers by name, bit and"
    " field. */"
)
MACHINE_MADE = (
    "The processor of the machine in this page is libx86emu's, changed (machine/patches/). Its"
    " licence:"
)
# A comment of a style sheet that has lines of its own.
COMMENT = re.compile(r"^ */\*.*?\*/\n", re.M | re.S)
# What a browser takes for the end of a page's script, or for a comment that hides it.
ENDING = re.compile(r"</script|<!--", re.I)


def joined(folder: Path) -> str:
    """One script of a folder's entry and of the modules that it leads to; a Trouble names one that
    nothing imports."""
    check_program(ESBUILD)
    with tempfile.TemporaryDirectory(prefix="vga-page-") as name:
        made, listed = (Path(name, file) for file in ("joined.js", "listed.json"))
        done = ended_well(
            [
                ESBUILD,
                ENTRY,
                "--bundle",
                "--minify",
                "--format=esm",
                f"--target={TARGETS}",
                "--charset=utf8",
                NOWHERE,
                f"--outfile={made}",
                f"--metafile={listed}",
                "--log-level=warning",
                "--color=false",
            ],
            folder,
            seconds=MOST_SECONDS,
        )
        # A warning tells of what is undefined, or never done.
        if done.errors:
            raise Trouble(done.said().strip(), ESBUILD)
        script = made.read_text("utf-8")
        found = json.loads(listed.read_text("utf-8"))["inputs"]
    places = {path.relative_to(folder).as_posix() for path in folder.rglob("*.js")}
    unused = sorted(place for place in places - found.keys() if not place.startswith(f"{TESTS}/"))
    if unused:
        raise Trouble(f"no module that {ENTRY} leads to imports it", unused[0])
    return script


class Sources(NamedTuple):
    """The texts of a page's sources: the frame, the style, the script that its modules are joined
    to, and the editor."""

    frame: str
    style: str
    script: str
    editor: Editor = Editor("", "", "")


def protect_sources(folder: Path = SOURCES) -> None:
    """Names the files that a page is made of as files that are read, so that none of them is
    written."""
    sources = [
        folder / "index.html",
        *folder.rglob("*.js"),
        *folder.rglob("*.css"),
        *package.sources(),
        *EXAMPLES.glob("*.vga"),
    ]
    for path in sources:
        to_read(str(path))


def read_sources(folder: Path = SOURCES) -> Sources:
    """The sources of a folder."""
    frame = Path(to_read(str(folder / "index.html"))).read_text("utf-8")
    return Sources(frame, styles(folder), joined(folder), joined_editor(TARGETS))


def styles(folder: Path = SOURCES) -> str:
    """The style sheets of a folder without the comments between their rules: the page's own first,
    and those of its parts by name."""
    first = Path(to_read(str(folder / FIRST_STYLE)))
    others = sorted(
        path for path in folder.rglob("*.css") if path != first and TESTS not in path.parts
    )
    return COMMENT.sub("", "".join(path.read_text("utf-8") for path in (first, *others)))


def _laid_out(value: Any, depth: int, margin: str = "  ") -> str:
    """JSON that has lines of its own, behind a margin, for what lies so deep in it."""
    if not depth or not isinstance(value, (dict, list)):
        return json.dumps(value, ensure_ascii=False)
    begin, within = f"\n{margin}", margin + "  "
    if isinstance(value, list):
        listed = (_laid_out(one, depth - 1, within) for one in value)
        return f"[{begin}{f',{begin}'.join(listed)}]"
    pairs = (
        f"{json.dumps(name)}: {_laid_out(one, depth - 1, within)}" for name, one in value.items()
    )
    return f"{{{begin}{f',{begin}'.join(pairs)}}}"


def wordings_module() -> str:
    """The module `page/script/wordings.js`: the table that the tools read."""
    # A register has a line.
    table = _laid_out(WORDINGS, 4)
    return f"{WORDINGS_HEAD}\nexport const WORDINGS = {table};\n"


def examples(folder: Path = EXAMPLES) -> list[dict[str, str]]:
    """The scripts of a folder, by their names."""
    texts = {
        path.stem: Path(to_read(str(path))).read_text("utf-8")
        for path in sorted(folder.glob("*.vga"))
    }
    return [{"name": name, "about": about(text), "text": text} for name, text in texts.items()]


def tutorial(text: str) -> list[dict[str, str]]:
    """The scripts of the tutorial: each has its part's heading, and the name of its file among the
    examples."""
    found = []
    for part in re.split(r"^## ", text, flags=re.M)[1:]:
        heading = part.split("\n", 1)[0]
        names = TUTORIAL_FILE.findall(part)
        scripts = SCRIPT_BLOCK.findall(part)
        if scripts and len(names) < len(scripts):
            raise Trouble(f"a script of part {heading} has no file", TUTORIAL.name)
        found += [
            {"name": name, "title": heading, "about": about(script), "text": script}
            for name, script in zip(names, scripts)
        ]
    return found


def _packed_json(value: Any) -> str:
    return in_base64(packed(json.dumps(value, separators=(",", ":")).encode("ascii")))


def data_of(module: bytes, machine: MachineModules) -> dict[str, Any]:
    """What the page is given, beside its sources."""
    return {
        "version": str(version()),
        "pages": PAGES,
        "open": None,
        "examples": _packed_json(examples()),
        "tutorial": _packed_json(tutorial(TUTORIAL.read_text("utf-8"))),
        "sections": _packed_json(quoted_sections()),
        "fonts": in_base64(FONTS.read_bytes()),
        "module": in_base64(packed(module)),
        "machine": {**machine.packed(), "programs": programs()},
    }


def _filled(frame: str, mark: str, content: str) -> str:
    if frame.count(mark) != 1:
        raise Trouble(
            f"{mark} stands {frame.count(mark)} times in it, and once is right", "index.html"
        )
    return frame.replace(mark, content)


def page_text(sources: Sources, data: dict[str, Any]) -> str:
    """The whole page."""
    editor = sources.editor
    if "</style" in (sources.style + editor.style).lower():
        raise Trouble("a page would take </style for the end of the style", FIRST_STYLE)
    for name, script in ((ENTRY, sources.script), ("the editor", editor.script)):
        ending = ENDING.search(script)
        if ending:
            raise Trouble(f"a page would take {ending[0]} for the end of a script", name)
    # The data come last, since what they hold may look like a mark.
    notice = NOTICE.read_text("ascii").strip()
    made = (
        f"<!-- The editor of this page is {editor.made}. -->\n<!-- {MACHINE_MADE}\n\n{notice}\n-->"
    )
    text = _filled(sources.frame, MADE, made)
    styles_of_both = f"<style>\n{editor.style}</style>\n<style>\n{sources.style}</style>"
    text = _filled(text, STYLE, styles_of_both)
    scripts = f"<script>\n{editor.script}</script>\n"
    text = _filled(text, SCRIPT, f'{scripts}<script type="module">\n{sources.script}</script>')
    return _filled(text, DATA, data_element(data))


def editor_in(page: str) -> Editor:
    """The editor that a page has in it."""
    parts = [found[1] for form in EDITOR if (found := form.search(page))]
    if len(parts) != len(EDITOR):
        raise Trouble("it has no editor", PAGE.name)
    return Editor(*parts)


def make_page(module: bytes, sources: Sources, machine: MachineModules) -> bytes:
    """The page's bytes, which are the same each time."""
    page = page_text(sources, data_of(module, machine)).encode("utf-8")
    if len(page) > MOST_BYTES:
        raise Trouble(
            f"it would have {len(page):,} bytes, and {MOST_BYTES:,} are the most", PAGE.name
        )
    return page
