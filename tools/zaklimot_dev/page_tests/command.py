"""Whether the page is what its sources make; and what node does with its module: suite, heap,
tests, examples."""

from __future__ import annotations

import argparse
import hashlib
import json
import os
import re
import shutil
import tempfile
from functools import partial
from pathlib import Path
from threading import Event
from typing import Any, Callable, Iterator, Mapping, Optional, Sequence

from zaklimot.commands.core.processes import (
    Limits,
    Word,
    captured,
    ended_well,
    in_parallel,
    run_command,
)
from zaklimot.commands.core.progress import Progress
from zaklimot.commands.core.streams import read_at_most
from zaklimot.commands.core.trouble import Trouble, Wrong
from zaklimot.commands.core.words import MEBIBYTE
from zaklimot_dev.library.making import kit_line
from zaklimot_dev.library_tests.compilers import make_check, run
from zaklimot_dev.page.machine import is_of_this_compiler, machine_in, made_machine
from zaklimot_dev.page.making import MOST_MODULE, check_module, kit_of, made_modules
from zaklimot_dev.page.packing import unzipped
from zaklimot_dev.page.package import FOLDER as LIBRARY
from zaklimot_dev.page.package import others
from zaklimot_dev.page.page import data_of, editor_in, page_text, read_sources
from zaklimot_dev.page.words import MOST_BYTES
from zaklimot.commands.report.cases import Case, read_cases
from zaklimot.commands.report.debugging import MOST_PAGE, PAGE, page_data
from zaklimot.commands.report.places import SUITE
from zaklimot.commands.report.suite import said_lines
from zaklimot.commands.script.program import PROGRAM

from .words import CHECKS, OF_HEAP, OF_MODULE, OF_OWN, OF_PAGE, OF_SCRIPTS, OF_SUITE


NAME = f"page/{PAGE.name}"
PACKED = ("examples", "tutorial", "sections", "module")
ANEW = f"`tools/vga-page make {NAME}` makes it anew"
NODE = "node"
PACKAGE = "nodejs"
# The first version that tells of its tests in the form below.
LEAST = 18
# Seconds that a test may take, where much else runs beside it, and those of one in a browser.
MOST_SECONDS = 300
BROWSER_SECONDS = 900
# All tests in node together; on two processors they take some five minutes.
TESTS_SECONDS = 900
TESTS = PAGE.parent / "tests"
# What is done with the page in a browser: its check of all examples, what the tutorial says, what
# a person does with keys and pointer, how long keys take, and each of its controls.
OPENING, TUTORIAL, BROWSER = (TESTS / f"{name}.mjs" for name in ("opening", "tutorial", "browser"))
USES = ("keeping", "writing", "typing", "panes", "sidebyside", "asking", "running")
# What the package for JavaScript does there, in a page, in a worker, and in its example.
OF_LIBRARY = LIBRARY / "tests" / "browsers.mjs"
BY_HAND = [TESTS / f"{name}.mjs" for name in USES]
CHROMIUM = "chromium"
FIREFOX = "firefox"
WEBKIT = "webkit"
# The browsers: the packages of Debian that each needs, and a package's programs, of which one is
# in the path.
ENGINES: dict[str, dict[str, Sequence[str]]] = {
    CHROMIUM: {"chromium": ("chromium", "chromium-browser", "google-chrome")},
    FIREFOX: {"firefox-esr": ("firefox", "firefox-esr")},
    WEBKIT: {"webkit2gtk-driver": ("WebKitWebDriver",), "xvfb": ("Xvfb",)},
}
HEAP, OWN, DRIVER = (
    Path(__file__).resolve().parent / f"{name}.mjs" for name in ("heap", "own", "suite")
)
# How a file tells that it has tests.
IS_TEST = 'from "node:test"'
SCRIPT = re.compile(r'<script type="module">\n(.*?)</script>', re.S)
# What node tells of its tests, in the form whose end names those that fail.
REPORTER = "spec"
COUNT = re.compile(r"^(?:\x1b\[[0-9]+m)*ℹ (pass|fail|skipped|todo|cancelled) ([0-9]+)", re.M)
# Where the tests find the module, the page as built, and a module whose memory doesn't grow.
MODULE = "ZAKLIMOT_MODULE"
BUILT = "ZAKLIMOT_PAGE"
SMALL = "ZAKLIMOT_SMALL_MODULE"
# So much memory the small module has: enough for two cards, and not for three.
SMALL_MEMORY = 16 * MEBIBYTE
# What a run of the program may take.
LIMITS = Limits(60, 256 * MEBIBYTE)
# Reports of so many bytes are kept, so that the line which differs can be told.
MOST_KEPT = 1 << 16
# What the program says before a fault.
SAID = "vga: "
# The way that each case without a bad line is run in.
STEPS = "steps, all at once"
# So many cases are told that differ.
MOST_TOLD = 20


def built_page() -> bytes:
    """The page of the repository."""
    if not PAGE.exists():
        raise Wrong(f"{NAME} is not there: {ANEW}")
    return read_at_most(str(PAGE), MOST_PAGE)


def module_in(page: bytes) -> bytes:
    """The module that a page has in it."""
    return unzipped(page_data(page.decode("utf-8"))["module"])


def _unpacked(data: Mapping[str, Any]) -> dict[str, Any]:
    """The data of a page, unpacked."""
    packed = {name: unzipped(data[name]) for name in PACKED}
    return {**data, **packed, "machine": _machine_parts(data["machine"])}


def _machine_parts(machine: Mapping[str, Any]) -> dict[str, Any]:
    """The machine of a page's data, with its modules unpacked."""
    return {**machine, **{name: unzipped(machine[name]) for name in ("cpu", "reads")}}


def check_machine(page: bytes) -> str:
    """Holds the machine's modules to their sources, as far as these can be had here."""
    kept = machine_in(page)
    try:
        if not is_of_this_compiler(kept):
            return (
                f"the machine in {NAME} was made by another compiler, {kit_of(kept.cpu)}: its tests"
                " judge it"
            )
        made = made_machine()
    except Trouble as trouble:
        return f"the machine in {NAME} is taken as it is: {trouble}"
    if made != kept:
        raise Wrong(f"the machine in {NAME} is not the one that its sources make: {ANEW}")
    return f"the machine in {NAME} is the one that its sources make, {len(kept.cpu):,} bytes"


def check_built(module: bytes, page: bytes) -> str:
    """Holds the page as built to its sources, and to the module that this kit makes.

    Where another kit has made the page's module, the suite judges it. An editor that other versions
    of its packages have made stays as it is.
    """
    own = module_in(page)
    data = page_data(page.decode("utf-8"))
    if len(page) > MOST_BYTES:
        raise Wrong(f"{NAME} has {len(page):,} bytes, and {MOST_BYTES:,} are the most")
    sources = read_sources()
    editor = editor_in(page.decode("utf-8"))
    is_other = editor.made != sources.editor.made
    wanted = page_text(sources._replace(editor=editor) if is_other else sources, data).encode(
        "utf-8"
    )
    if page != wanted:
        line = page.count(b"\n", 0, len(os.path.commonprefix([page, wanted]))) + 1
        raise Wrong(f"{NAME} is not the page that its sources make, from line {line} on; {ANEW}")
    # Other versions of zlib pack otherwise.
    parts, wanted_parts = (_unpacked(one) for one in (data, data_of(own, machine_in(page))))
    others = [name for name in wanted_parts if parts.get(name) != wanted_parts[name]]
    if others or list(parts) != list(wanted_parts):
        raise Wrong(
            f"{NAME} has other data than the repository: {', '.join(others or parts)}; {ANEW}"
        )
    told = f"{NAME} is the page that its sources make, {len(page):,} bytes"
    if is_other:
        told += f", around the editor {editor.made}"
    if own == module:
        return f"{told}; its module is the one that the crate makes"
    if kit_of(own) == kit_of(module):
        raise Wrong(f"the module in {NAME} is not the one that the crate makes: {ANEW}")
    return f"{told}, around a module of another kit, {kit_of(own)}: the suite judges that"


def check_modules(modules: Sequence[bytes]) -> str:
    """The module has what the page relies on, and is the same bytes each time."""
    if len(set(modules)) != 1:
        lengths = ", ".join(f"{len(one):,} bytes" for one in modules)
        raise Wrong(f"two modules of the same crate differ: {lengths}")
    return check_module(modules[0]) + (", the same twice" if len(modules) > 1 else "")


def _answer(words: Sequence[str]) -> str:
    done = captured(words, seconds=MOST_SECONDS)
    return done.output.decode("utf-8", "replace").strip() if done.status == 0 else ""


def node_words() -> list[str]:
    """The words that start node; a Trouble names the package where it is lacking."""
    path = shutil.which(NODE)
    if path is None:
        raise Trouble(f"it is not in the path: install the package {PACKAGE}", NODE)
    version = _answer([path, "--version"])
    found = re.match(r"v([0-9]+)\.", version)
    if found is None or int(found[1]) < LEAST:
        needed = f"and the tests need {LEAST} or newer: the package {PACKAGE}"
        raise Trouble(f"it is {version or 'of no version'}, {needed}", NODE)
    return [path]


def run_node(
    words: Sequence[str | Path],
    environment: Optional[Mapping[str, str]] = None,
    seconds: int = MOST_SECONDS,
) -> str:
    """What a script writes that ends well within so many seconds; else a Wrong tells what it
    said."""
    return run([*node_words(), *words], seconds=seconds, environment=environment)


def check_package(page: bytes) -> str:
    """The package for JavaScript, and the examples of one file, have the module of a page."""
    wrong = others(module_in(page))
    if wrong:
        raise Wrong(f"{' and '.join(wrong)}: this is not what is made with {NAME}: {ANEW}")
    return "so are the files that are made with it"


def _check_page(module: bytes, page: bytes, folder: Path) -> str:
    told = (check_built(module, page), check_package(page), check_syntax(page, folder))
    return "; ".join((*told, check_machine(page)))


def check_syntax(page: bytes, folder: Path) -> str:
    """The joined script of the page is one that an engine takes, in which no name is declared
    twice."""
    found = SCRIPT.findall(page.decode("utf-8"))
    if len(found) != 1:
        raise Wrong(f"the page has {len(found)} scripts, and one is right")
    script = folder / "page.mjs"
    script.write_text(found[0], "utf-8")
    run_node(["--check", script])
    return f"a script of {len(found[0]):,} characters, as node takes it"


def check_scripts(module: Path, small: Optional[Path], folder: Path = TESTS) -> str:
    """The tests of a folder in node, of which each passes, and none is left out; the small module
    has fixed memory."""
    files = sorted(path for path in folder.glob("*.mjs") if path.name != BROWSER.name)
    files = [path for path in files if IS_TEST in path.read_text("utf-8")]
    if not files:
        raise Wrong(f"there are no tests in {folder}")
    environment = {
        MODULE: str(module),
        BUILT: str(PAGE),
        **({} if small is None else {SMALL: str(small)}),
    }
    counts = dict(
        COUNT.findall(
            run_node(["--test", "--test-reporter", REPORTER, *files], environment, TESTS_SECONDS)
        )
    )
    passed = counts.pop("pass", "0")
    if passed == "0" or set(counts.values()) != {"0"}:
        raise Wrong(f"the page's tests in node: {passed} pass, {counts}")
    return f"{passed} tests of the page's scripts pass"


def check_own(module: Path, _: Optional[Path] = None) -> str:
    """The page's check of its examples, over its module: each answers as by `zak_run`, and as
    expected."""
    told = json.loads(run_node([OWN, module, PAGE]))
    if told["differ"] or not (told["agree"] and told["expected"]):
        lines = [f"  {line}" for line in told["lines"]]
        raise Wrong("\n".join(["the page's check of its examples:", *lines]))
    return f"{told['agree']} examples answer as by zak_run, {told['expected']} answers as expected"


def check_heap(module: Path, small: Optional[Path]) -> str:
    """The module's heap: blocks at random don't overlap, and calls say where memory is spent, and
    go on."""
    if small is None:
        return "left out: --module has none of fixed memory"
    told = json.loads(run_node([HEAP, module, small]))
    grown = told["grown"] // MEBIBYTE
    cards = told["cards"]
    spent = f"where memory is spent after {cards} card{'s' * (cards != 1)}, calls say so and go on"
    return f"{told['rounds']:,} times a block is taken or given back, in {grown} MiB; {spent}"


def lacking_packages(engine: str) -> list[str]:
    """The packages that a browser still needs."""
    needed = ENGINES[engine].items()
    return [package for package, names in needed if not any(map(shutil.which, names))]


def check_browser(engine: str) -> str:
    """The page as built in a browser, the tutorial in it, and the package for JavaScript. Chromium
    uses each control too."""
    tests: list[list[Word]] = [[OPENING, engine], [TUTORIAL, engine], [OF_LIBRARY, engine]]
    if engine != WEBKIT:
        tests += [[test, engine] for test in BY_HAND]
    if engine == CHROMIUM:
        tests.append([BROWSER])
    told = [run_node(words, {BUILT: str(PAGE)}, BROWSER_SECONDS) for words in tests]
    return "".join(told).strip().replace("\n", "; ")


def _browser_checks() -> Iterator[tuple[str, Callable[[], str]]]:
    """The checks in all browsers that are there; of the others it is told what they need."""
    lacking = {engine: packages for engine in ENGINES if (packages := lacking_packages(engine))}
    needed = {engine: f"install {' and '.join(packages)}" for engine, packages in lacking.items()}
    if len(lacking) == len(ENGINES):
        told = "; ".join(f"for {engine} {words}" for engine, words in needed.items())
        raise Trouble(f"no browser is in the path: {told}", "--browser")
    for engine, words in needed.items():
        print(f"{engine}: not tried: {words}", flush=True)
    for engine in ENGINES:
        if engine not in lacking:
            yield engine, partial(check_browser, engine)


def _native(top: Path, is_ended: Event, numbered: tuple[int, Case]) -> dict[str, Any]:
    """A case as the module is to run it: its files, and the sum of the report that the program
    writes."""
    number, case = numbered
    folder = top / str(number)
    folder.mkdir()
    script, report, messages = (folder / name for name in ("script", "report", "said"))
    script.write_bytes(case.script() if case.is_bytes else case.stopped_script())
    words = [
        str(PROGRAM),
        "run" if case.is_bytes else "go",
        str(script),
        "--fonts",
        str(case.fonts),
    ]
    outcome = run_command(words, report, messages, LIMITS, is_ended)
    if outcome.status is None:
        raise Trouble(f"{case.name}: {outcome.reason}", str(PROGRAM))
    if outcome.status:
        report.write_text(said_lines(messages)[-1].removeprefix(SAID) + "\n", "ascii")
    length = report.stat().st_size
    told: dict[str, object] = {
        "name": case.name,
        "isBytes": case.is_bytes,
        "script": str(script),
        "fonts": str(case.fonts),
        "length": length,
        "sha256": hashlib.sha256(report.read_bytes()).hexdigest(),
    }
    if not case.is_bytes:
        told.update(_assembled(script))
    if length <= MOST_KEPT:
        return {**told, "report": str(report)}
    # Of long reports with pictures the sum is enough.
    report.unlink()
    return told


def _assembled(text: Path) -> dict[str, str]:
    """The files of a text's bytes, and of the text that the program prints of these; none of a bad
    text."""
    made, printed = text.with_suffix(".bin"), text.with_suffix(".dis")
    if captured([PROGRAM, "asm", text, made]).status:
        return {}
    printed.write_bytes(ended_well([PROGRAM, "dis", made]).output)
    return {"assembled": str(made), "printed": str(printed)}


def check_suite(module: Path, folder: Path) -> str:
    """Each case answers in each way what the program writes; what was run is told."""
    if not os.access(PROGRAM, os.X_OK):
        raise Trouble(
            "the program isn't built: (cd crates/vga && rt run -- --help) builds it", str(PROGRAM)
        )
    cases = read_cases(str(SUITE))
    is_ended = Event()
    folder.mkdir()
    with in_parallel(
        partial(_native, folder, is_ended), enumerate(cases), os.cpu_count() or 1, is_ended
    ) as found:
        told = list(found)
    listed = folder / "cases.json"
    listed.write_text(json.dumps(told), "utf-8")
    return judged(json.loads(run_node([DRIVER, module, listed])), len(cases))


def judged(answer: dict[str, Any], count: int) -> str:
    """What the driver tells, where each way has run its cases and none of them differs."""
    wrong = answer["wrong"]
    if wrong:
        lines = [f"  {one['name']}, by {one['way']}: {one['reason']}" for one in wrong[:MOST_TOLD]]
        raise Wrong("\n".join([f"{len(wrong)} reports differ from the program's", *lines]))
    ways: dict[str, int] = answer["ways"]
    if (
        not (ways.get("bytes") and ways.get(STEPS))
        or min(ways.values()) == 0
        or ways["bytes"] > count
    ):
        raise Wrong(f"too few cases were run: {ways}")
    return "; ".join(f"by {way} {number}" for way, number in ways.items()) + f"; of {count} cases"


def _made(
    words: argparse.Namespace, progress: Progress, page: Optional[bytes]
) -> tuple[list[bytes], Optional[bytes]]:
    """The modules that are to be the same, and one whose memory is small, unless the module is
    given."""
    if words.module is not None:
        return [read_at_most(words.module, MOST_MODULE)], None
    # One module is enough where it is held to the page's, which this kit made in another run.
    is_held = page is not None and kit_of(module_in(page)) == kit_line()
    made = made_modules(words, progress, [None, SMALL_MEMORY], 1 if is_held else 2)
    return [module for module, _ in made], made[0][1]


def _laid(folder: Path, **modules: Optional[bytes]) -> dict[str, Path]:
    """The files of modules by their names, of those that there are."""
    files = {}
    for name, data in modules.items():
        if data is not None:
            files[name] = folder / f"{name}.wasm"
            files[name].write_bytes(data)
    return files


def _checks(
    words: argparse.Namespace, progress: Progress, folder: Path
) -> Iterator[tuple[str, Callable[[], str]]]:
    wanted = words.only or CHECKS
    page = built_page() if {OF_PAGE, OF_SCRIPTS, OF_OWN} & set(wanted) else None
    same, small = _made(words, progress, page if OF_PAGE in wanted else None)
    yield OF_MODULE, partial(check_modules, same)
    # What runs in the page is the module in it, even where that is another kit's.
    in_page = same[0] if page is None else module_in(page)
    files = _laid(folder, module=same[0], page=in_page, small=small)
    if OF_PAGE in wanted and page is not None:
        yield OF_PAGE, partial(_check_page, same[0], page, folder)
    if OF_SUITE in wanted:
        for name in ("module", "page")[: 1 + (OF_PAGE in wanted and in_page != same[0])]:
            yield OF_SUITE, partial(check_suite, files[name], folder / f"cases of {name}")
    last: dict[str, Callable[[Path, Optional[Path]], str]] = {
        OF_HEAP: check_heap,
        OF_SCRIPTS: check_scripts,
        OF_OWN: check_own,
    }
    for name, check in last.items():
        if name in wanted:
            yield name, partial(check, files["page"], files.get("small"))


def run_checks(words: argparse.Namespace, progress: Progress) -> None:
    """Makes the checks, and tells what each finds."""
    node_words()
    if words.ready:
        return
    with tempfile.TemporaryDirectory(prefix="vga-page-tests-") as name:
        checks = _browser_checks() if words.browser else _checks(words, progress, Path(name))
        for check, work in checks:
            make_check(check, work)
