"""The pages: their links and commands, the tutorial as its files, and what they say of the
sources."""

from __future__ import annotations

import os
import re
import shutil
import sys
import unittest
import zlib
from pathlib import Path
from typing import Iterator

from zaklimot import Script, format
from zaklimot_dev.page.page import examples
from zaklimot_dev.page.weighing import table_of, weights
from zaklimot_dev.page.words import MOST_BYTES as MOST_PAGE_BYTES
from zaklimot.commands.report.cases import read_cases
from zaklimot.commands.report.places import SUITE
from zaklimot.commands.script.words import FONTS

from .tools import (
    EXAMPLES,
    TOOLS,
    TOP,
    Folder,
    ended,
    png_chunks,
    run_program,
    run_tool,
    want_program,
)

# A link or a picture: what stands between its round brackets, without a title.
LINK = re.compile(r"\]\(([^()\s]+)\)")
HEADING, ANCHOR = re.compile(r"#{1,6} +(.*?)\s*$"), re.compile(r'<a (?:id|name)="([^"]+)">')
FENCE = re.compile(r"^ *(```|~~~)")
OUTSIDE = ("http:", "https:", "mailto:")
# How a command of the repository begins. In prose its path stands between back quotes.
COMMAND = re.compile(r"(?:\$ )?(?:(?:tools|crates|bench|examples|page|\.ci)/\S+|\./zaklimot)( |$)")
TUTORIAL = TOP / "docs" / "TUTORIAL.md"
TEXT = TUTORIAL.read_text("utf-8")
SCRIPTS = EXAMPLES / "tutorial"
CIRCLE = EXAMPLES / "python" / "circle.py"
# What the page has whole, in its order. The circle's script is too long for it.
WHOLE = [
    SCRIPTS / "hello.vga",
    SCRIPTS / "eight-pixels.vga",
    CIRCLE,
    SCRIPTS / "going-round.vga",
    SCRIPTS / "three-bands.vga",
    SCRIPTS / "lost-pixels.vga",
]
BLOCK = re.compile(r"^```\w*\n(.*?)^```$", re.M | re.S)
# The commands of examples/README.md that make pictures: script, stop, words of `pictures`, file.
MAKING = re.compile(
    r"vga go (examples/tutorial/\S+)( --until \d+)? --fonts fonts/zaklimot\.fnt \|\n"
    r" +\./zaklimot pictures (.*?) ?>? (docs/pictures/\S+)$",
    re.M,
)
# The tutorial's pictures stay small.
MOST_BYTES = 40_000
MOST_MOVING_BYTES = 100_000
# A number of wrong bodies in a page's words.
COUNTED = re.compile(r"([\d,]+) wrong bodies|[Ww]rong bodies, ([\d,]+) of them")
# A wrong body: a file of its crate, and in it texts that stand there once, each with what it
# becomes.
PLACE = re.compile(r"\nold: (.*)\nnew: (.*)")
WRONG_BODY = re.compile(rf"file: (src/[\w/]+\.rt)((?:{PLACE.pattern})+)\n?")
# The definitions of the plain screen, of its dots and of its report.
SCREENS = [
    f"bios_screen/specs/{name}.antt"
    for name in ("Screen", "Step", "Colours", "Loaded", "Called", "Fresh", "Picture", "Drawing")
] + [f"vga_run/specs/{name}.antt" for name in ("ScreenReport", "DotReport")]
# What such a file has from the definitions of services. Their plans are compared with, and not
# shared.
SHARED = re.compile(
    r"(?m)^use Rattle\.bios_services\.specs\.(?!declared|Service\b|Plan\b)\w+\.\{([^}]*)\}"
)
# What the model has from the adapter: the four registers, and the names of refusals.
NAMES = {"bios_services::Regs", "vga_bits::Refusal"}


def prose(text: str) -> Iterator[str]:
    """The lines of a page that are no code."""
    inside = False
    for line in text.splitlines():
        if FENCE.match(line):
            inside = not inside
        elif not inside and not line.startswith("    "):
            yield re.sub(
                r"`[^`]*`", lambda code: "`" + re.sub(r"[\[\]()]", "", code.group()) + "`", line
            )


def anchors(text: str) -> set[str]:
    """All anchors of a page: those of its headings, the second of a name with -1, and those that it
    names itself."""
    found: set[str] = set()
    for line in prose(text):
        found.update(ANCHOR.findall(line))
        heading = HEADING.match(line)
        if heading:
            # The letters of the heading in lower case, blanks as hyphens, and no other marks.
            plain = (
                re.sub(r"\[([^\]]*)\]\([^)]*\)", r"\1", heading.group(1)).replace("`", "").lower()
            )
            name = re.sub(r"[^\w\- ]", "", plain).replace(" ", "-")
            more = 0
            while name + (f"-{more}" if more else "") in found:
                more += 1
            found.add(name + (f"-{more}" if more else ""))
    return found


def broken(page: Path, text: str) -> list[str]:
    """The links of a page that lead nowhere."""
    wrong = []
    for target in LINK.findall("\n".join(prose(text))):
        if target.startswith(OUTSIDE):
            continue
        path, _, anchor = target.partition("#")
        file = (page.parent / path).resolve() if path else page
        if file != page and not file.exists():
            wrong.append(target)
        elif (
            anchor
            and file.suffix == ".md"
            and anchor not in anchors(text if file == page else file.read_text("utf-8"))
        ):
            wrong.append(target)
    return wrong


def commands_in_prose(text: str) -> list[str]:
    """The lines of a page that are commands, and that a reader sees as a paragraph."""
    return [line for line in prose(text) if COMMAND.match(line)]


def files(*patterns: str) -> list[str]:
    """The files of the repository whose paths fit a pattern, or all of them. Without git, or where
    this is no clone, the test is skipped."""
    words = ("ls-files", "-z", "--cached", "--others", "--exclude-standard", "--", *patterns)
    if shutil.which("git") is None:
        raise unittest.SkipTest("git is not here")
    status, listed, _ = ended("git", *words, cwd=TOP, text=False)
    if status:
        raise unittest.SkipTest("this is no clone")
    return [
        name for name in sorted(set(listed.decode().split("\0"))) if name and (TOP / name).exists()
    ]


def pages() -> list[Path]:
    """The pages of the repository; transcripts are run, by tests of their own."""
    return [TOP / name for name in files("*.md", ":!tools/tests/transcripts")]


def named_files(text: str) -> Iterator[tuple[str, str]]:
    """The folder and the name of each file that rows of a table name, as `vga_host`: `src/host.rt`,
    `specs/Ports.antt`."""
    for line in text.splitlines():
        folder = ""
        for name, colon in re.findall(r"`([^` ]+)`(:?)", line):
            if colon:
                folder = f"crates/{name}/" if (TOP / "crates" / name).is_dir() else name
            elif "/" in name or "." in name:
                yield folder, name.rstrip("/")


class Links(unittest.TestCase):
    """What a reader follows is there."""

    def test_each_link_leads_somewhere(self) -> None:
        listed = pages()
        self.assertGreater(len(listed), 20)
        for page in listed:
            with self.subTest(page.relative_to(TOP)):
                self.assertEqual(broken(page, page.read_text("utf-8")), [])

    def test_a_broken_link_is_found(self) -> None:
        text = (
            "# One\n\n## Two `and` more\n\n[a](#two-and-more) [b](#none) [c](none.md)"
            " [d](README.md#none)\n\n    [e](none.md)\n"
        )
        self.assertEqual(broken(TOP / "page.md", text), ["#none", "none.md", "README.md#none"])

    def test_headings_of_one_name(self) -> None:
        self.assertEqual(
            anchors('# A b\n\n# A b\n\n<a id="x.y"></a>\n```\n# no\n```\n'), {"a-b", "a-b-1", "x.y"}
        )


class Touched(unittest.TestCase):
    """Each file that a change goes through, as CONTRIBUTING tells them, is there."""

    def test_each_is_there(self) -> None:
        text = (
            (TOP / "CONTRIBUTING.md")
            .read_text("utf-8")
            .partition("\n## What a change touches\n")[2]
            .partition("\n## ")[0]
        )
        named = set(named_files(text))
        listed = files()
        self.assertGreater(len(named), 100)
        for folder, name in sorted(named):
            # A module of proofs may be named without its end.
            wanted = re.compile(rf"({re.escape(folder)}(.*/)?)?{re.escape(name)}(\.antt)?(/.*)?")
            with self.subTest(folder, name=name):
                self.assertTrue(any(map(wanted.fullmatch, listed)))


class Commands(unittest.TestCase):
    """Each command of the repository that stands on a line of its own is code."""

    def test_each_is_indented_or_fenced(self) -> None:
        for page in pages():
            with self.subTest(page.relative_to(TOP)):
                self.assertEqual(commands_in_prose(page.read_text("utf-8")), [])

    def test_one_that_lost_its_indentation_is_found(self) -> None:
        lost = "tools/vga-lost report.txt"
        text = (
            f"# One\n\n{lost}\n\n    {lost}\n\n```\n{lost}\n```\n`{lost}` is"
            " a\ntools-of-tests/one\n"
        )
        self.assertEqual(commands_in_prose(text), [lost])


class Front(unittest.TestCase):
    """The front page and the tutorial are easy to read, and the page has the size that is told."""

    def test_no_line_is_long(self) -> None:
        for page in (TOP / "README.md", TUTORIAL):
            lines = page.read_text("utf-8").splitlines()
            # A row of a table and a picture are one line each, however long.
            self.assertEqual(
                [line for line in lines if len(line) > 100 and not line.startswith(("|", "!["))], []
            )

    def test_the_page_that_runs_scripts_has_the_size_that_is_told(self) -> None:
        size = (TOP / "page" / "zaklimot.html").stat().st_size
        self.assertIn(
            f"The page has {size:,} bytes.", (TOP / "docs" / "PAGE.md").read_text("utf-8")
        )

    def test_the_page_that_runs_scripts_has_the_bytes_of_each_kind_that_are_told(self) -> None:
        weighed = weights((TOP / "page" / "zaklimot.html").read_text("utf-8"))
        told = (TOP / "docs" / "PAGE.md").read_text("utf-8")
        self.assertIn(f"\n| In the page | Bytes |\n|---|---|\n{table_of(weighed)}\n\n", told)
        self.assertIn(f"The page may have {MOST_PAGE_BYTES:,} bytes.", told)


class Guests(unittest.TestCase):
    """The guests whose calls take longest are those that the benchmark measures."""

    def test_the_page_has_each_of_them(self) -> None:
        asking = "import guests; print(*(one.words for one in guests.GUESTS), sep='\\n')"
        status, measured, said = ended(sys.executable, "-Bc", asking, cwd=TOP / "bench")
        self.assertEqual((status, said), (0, ""))
        page = (TOP / "SECURITY.md").read_text("utf-8")
        told = re.findall(r"(?m)^\| `zak_.* \| `([0-9A-F]{2}(?: \w+=[0-9A-F]+)*)` \|", page)
        self.assertEqual(told, measured.splitlines())


# The reference pages, and their sections that are examples and no rules.
REFERENCE: dict[str, set[str]] = {
    "REGISTERS": set(),
    "HOST-PATH": {"Worked example"},
    "RASTER": {"Two examples"},
    "MODES": set(),
    "SERVICES": {"A screen in ten steps"},
}
DEFINED = re.compile(r"\[`(\w+)`\]\(\.\./(crates/[^)]*\.antt)\)")
SHOWN = re.compile(r"\[[^\]]*\]\(\.\./crates/vga_suite/data/([^)]*)\.vga\)")


class References(unittest.TestCase):
    """Each rule of the reference pages names what defines it and which cases show it."""

    def test_each_section_has_definitions_and_cases(self) -> None:
        cases = set((TOP / "crates/vga_suite/data/list.txt").read_text("utf-8").split())
        for name, apart in REFERENCE.items():
            sections = re.split(r"(?m)^## ", (TOP / "docs" / f"{name}.md").read_text("utf-8"))[1:]
            for section in sections:
                title, _, body = section.partition("\n")
                if title in apart:
                    continue
                with self.subTest(page=name, section=title):
                    defined = DEFINED.findall(body)
                    shown = SHOWN.findall(body)
                    self.assertTrue(defined and shown)
                    self.assertEqual([case for case in shown if case not in cases], [])
                    for word, file in defined:
                        said = (TOP / file).read_text("utf-8")
                        self.assertRegex(said, rf"(?m)^(\w+ )?pub (record |data )?{word}\b")


def steps_of(text: str) -> str:
    """A script's lines without its comments, and without those that have no word."""
    lines = (line.partition(";")[0].rstrip() for line in text.splitlines())
    return "".join(f"{line}\n" for line in lines if line)


def printed(text: str | bytes) -> list[str]:
    """A script's lines, as `vga dis` prints them."""
    return format.print_text(format.parse_text(text)).splitlines()


def unpacked(png: bytes) -> list[bytes]:
    """The header of a PNG, and the dots of each of its frames, however they are packed."""
    header = b""
    packed = [b""]
    for kind, data in png_chunks(png):
        if kind == b"IHDR":
            header = data
        elif kind == b"fcTL" and packed[-1]:
            packed.append(b"")
        elif kind in (b"IDAT", b"fdAT"):
            packed[-1] += data if kind == b"IDAT" else data[4:]
    return [header, *map(zlib.decompress, packed)]


class Tutorial(unittest.TestCase):
    """The scripts, the program and the figures of the tutorial are those of the files."""

    def test_each_block_is_a_file(self) -> None:
        self.assertEqual(BLOCK.findall(TEXT), [path.read_text("utf-8") for path in WHOLE])

    def test_each_script_has_its_command(self) -> None:
        command = r"In a terminal: `\./zaklimot run (\S+) (?:--only pictures )?--show`\.$"
        names = sorted(str(path.relative_to(TOP)) for path in SCRIPTS.iterdir())
        self.assertEqual(sorted(re.findall(command, TEXT, re.M)), names)

    def test_the_page_has_them_not_in_its_list(self) -> None:
        listed = {one["name"] for one in examples()}
        self.assertEqual({path.stem for path in SCRIPTS.iterdir()} & listed, set())

    def test_the_program_writes_the_script(self) -> None:
        environment = {**os.environ, "PYTHONPATH": str(TOP / "python")}
        status, output, said = ended(sys.executable, "-B", CIRCLE, env=environment)
        self.assertEqual((status, said), (0, ""))
        self.assertTrue(
            output == steps_of((SCRIPTS / "circle.vga").read_text("ascii")), "another script"
        )

    def test_what_the_page_counts(self) -> None:
        steps = steps_of((SCRIPTS / "circle.vga").read_text("ascii")).splitlines()
        puts = sum(step.startswith("put ") for step in steps)
        self.assertIn(f"There are {len(steps):,}, of which {puts:,} are `put`.", TEXT)


class Words(unittest.TestCase):
    """What stands beside a part in Python writes a step of the part's script."""

    def lines(self) -> Iterator[str]:
        colours = bytes.fromhex("00001010002A3F00303F20003F3F10")
        known = {"zaklimot": sys.modules["zaklimot"], "colours": colours}
        for words in re.findall(r"In Python: `script\.(.+)`", TEXT):
            script = Script()
            # They are the page's own, and write a step each.
            exec(f"script.{words}", {"script": script, **known})
            yield script.text().rstrip("\n")

    def test_each_is_a_step_of_a_script(self) -> None:
        steps = {step for path in SCRIPTS.iterdir() for step in printed(path.read_bytes())}
        written = [step for line in self.lines() for step in printed(line)]
        self.assertEqual(len(written), 5)
        self.assertEqual([line for line in written if line not in steps], [])


class Pictures(Folder):
    """The pictures are what the commands of examples/README.md make."""

    def test_they_are_small(self) -> None:
        names = re.findall(r"\]\((pictures/\S+)\)", TEXT)
        self.assertEqual(len(names), len(set(names)))
        there = {f"pictures/{path.name}" for path in TUTORIAL.parent.glob("pictures/tutorial-*")}
        self.assertEqual(there, set(names))
        for name in names:
            moves = name.endswith("going-round.png")
            most = MOST_MOVING_BYTES if moves else MOST_BYTES
            self.assertLess((TUTORIAL.parent / name).stat().st_size, most, name)

    def test_each_is_its_scripts(self) -> None:
        want_program()
        commands = MAKING.findall((EXAMPLES / "README.md").read_text("utf-8"))
        self.assertEqual(len(commands), 4)
        for script, stop, words, picture in commands:
            with self.subTest(picture):
                ran = run_program("go", TOP / script, *stop.split(), "--fonts", FONTS)
                self.assertEqual((ran.status, ran.said), (0, ""))
                made = self.made(words.split(), ran.report)
                shown = (TOP / picture).read_bytes()
                self.assertTrue(unpacked(made) == unpacked(shown), "another picture")

    def made(self, words: list[str], report: bytes) -> bytes:
        """What `zaklimot suite pictures` makes of a report."""
        moves = "--apng" in words
        path = self.folder / "picture.png"
        words = [*words, str(path)] if moves else words
        status, output, said = run_tool("zaklimot", "pictures", *words, given=report)
        self.assertEqual(status, 0, said)
        return path.read_bytes() if moves else output


def wrong_bodies() -> list[Path]:
    """The edits of all crates that the prover must refuse."""
    return sorted((TOP / "crates").glob("*/must-fail/*.edit"))


class WrongBodies(unittest.TestCase):
    """Each edit turns code, and they are as many as the pages say."""

    def test_each_turns_code_that_stands_once(self) -> None:
        for path in wrong_bodies():
            with self.subTest(path.relative_to(TOP)):
                found = WRONG_BODY.fullmatch(path.read_text())
                assert found is not None
                text = (path.parents[1] / found[1]).read_text()
                for old, new in PLACE.findall(found[2]):
                    self.assertEqual(text.count(old), 1, old)
                    self.assertNotRegex(
                        f"{old}\n{new}", r"\b(ensures|requires|ghost|tactic|specs|proofs)\b"
                    )
                    self.assertNotEqual(old, new)
                    text = text.replace(old, new)

    def test_pages_count_them(self) -> None:
        pages = [*TOP.glob("*.md"), *(TOP / "docs").glob("*.md"), TOP / "tools" / "README.md"]
        told = {page.name: COUNTED.findall(page.read_text()) for page in pages}
        self.assertEqual(len(told["PROOFS.md"]), 2)
        for name, counts in told.items():
            for count in counts:
                self.assertEqual(int("".join(count).replace(",", "")), len(wrong_bodies()), name)


class Cases(unittest.TestCase):
    """The suite has as many cases as the pages say."""

    # The pages that tell the number of all cases, and how often each does.
    TOLD = {
        "README.md": 1,
        "docs/PROOFS.md": 3,
        "docs/PAGE.md": 1,
        "docs/RELEASES.md": 3,
        "docs/LIBRARY-TESTS.md": 1,
    }

    def test_pages_count_them(self) -> None:
        count = len(read_cases(str(SUITE)))
        for name, times in self.TOLD.items():
            with self.subTest(name):
                told = re.findall(r"\b(\d{3,})\s+cases\b", (TOP / name).read_text("utf-8"))
                self.assertEqual(told, [str(count)] * times)

    def test_a_page_tells_of_each_folder(self) -> None:
        page = (
            (TOP / "docs" / "SUITE.md").read_text("utf-8").partition("## What the folders hold")[2]
        )
        folders = {case.name.partition("/")[0] for case in read_cases(str(SUITE))}
        self.assertEqual(
            sorted(
                folder for folder in folders if f"`{folder}/`" not in page.partition("\n## ")[0]
            ),
            [],
        )
        self.assertIn("not UTF-8", page)
        self.assertIn("vga asm s.vga s.vga", (TOOLS / "README.md").read_text("utf-8"))


class Model(unittest.TestCase):
    """The slow model of the plain screen has definitions of its own, and the page names what laws
    share."""

    def test_it_shares_no_definition(self) -> None:
        lines = [line for line in (TOP / "crates.txt").read_text().splitlines() if ":" in line]
        crates = "|".join(
            line.partition(":")[0].split()[0] for line in lines if not line.startswith("#")
        )
        paths = sorted((TOP / "crates" / "vga_models" / "src").glob("plain_*.rt"))
        self.assertGreater(len(paths), 10)
        for path in paths:
            text = path.read_text()
            with self.subTest(path.name):
                self.assertLessEqual(set(re.findall(rf"\b(?:{crates})::[\w{{*]+", text)), NAMES)
                self.assertLessEqual(set(re.findall(r"\bRattle\.(\w+)", text)), {"std"})

    def test_words_that_screens_share_with_plans_are_named(self) -> None:
        texts = [(TOP / "crates" / name).read_text() for name in SCREENS]
        found = [names for text in texts for names in SHARED.findall(text)]
        words = {word.strip() for names in found for word in names.split(",")} - {"◌or◌"}
        self.assertIn("call_of", words)
        self.assertIn("window_clipped_to_page", words)
        page = (TOP / "docs" / "PROOFS.md").read_text("utf-8")
        self.assertEqual(sorted(word for word in words if f"`{word}`" not in page), [])


class SourcesOfCrates(unittest.TestCase):
    """Each source of a crate that a page's table names is there."""

    CRATE = re.compile(r"`(\w+)`: ((?:`[\w/]+\.rt`(?:, )?)+)(?: of `([\w/]+)/`)?")

    def test_each_is_there(self) -> None:
        rows = self.CRATE.findall((TOP / "docs" / "ARCHITECTURE.md").read_text("utf-8"))
        self.assertGreater(len(rows), 5)
        for crate, names, folder in rows:
            for name in re.findall(r"`([^`]*)`", names):
                with self.subTest(crate=crate, name=name):
                    end = f"{folder}/{name}" if folder else name
                    found = (TOP / "crates" / crate / "src").rglob(Path(name).name)
                    self.assertTrue(any(path.as_posix().endswith(f"/{end}") for path in found))


class Modules(unittest.TestCase):
    """No page, script or test names a module of a tool that is not there."""

    NAMED = re.compile(
        r"from (zaklimot(?:_dev|\.commands)[\w.]*)\.(\w+) import"
        r"|(?<![\w/])((?:tools|python)/(?:\w+/)+\w+\.(?:py|css|js|mjs|c|json))\b"
    )

    def test_each_is_there(self) -> None:
        ends = ("mjs", "js", "py", "md")
        seen = 0
        # Neither crates, tools themselves, nor what is hidden.
        files = [path for end in ends for path in TOP.glob(f"[!.ct]*/**/*.{end}")]
        for path in files:
            for package, module, file in self.NAMED.findall(path.read_text("utf-8", "replace")):
                folder = "tools" if package.startswith("zaklimot_dev") else "python"
                named = file or f"{folder}/{package.replace('.', '/')}/{module}.py"
                with self.subTest(path.relative_to(TOP), module=named):
                    there = TOP / named
                    self.assertTrue(there.is_file() or there.with_suffix("").is_dir())
                    seen += 1
        self.assertGreater(seen, 20)
