"""Records on the page's own machine, without a browser, what software does to the adapter: its
trace, and its screens.

The machine is the page's: its modules are in page/zaklimot.html, and node runs them. The same
software and keys give the same bytes.
"""

import json
import re
import subprocess
import tempfile
import time
from contextlib import ExitStack
from dataclasses import dataclass
from pathlib import Path
from typing import Any, BinaryIO, Optional, Sequence, cast

from zaklimot.commands import TOP
from zaklimot.commands.core.processes import (
    DRAINING,
    MOST_IN_LINE,
    Word,
    check_program,
    end_with_parent,
    run,
    said_last,
    started,
)
from zaklimot.commands.core.progress import Progress
from zaklimot.commands.core.streams import bytes_of
from zaklimot.commands.core.trouble import Trouble

from .asked import USUAL_SPEED, Deed
from .keeper import Keeper
from .note import PAGE_MACHINE, Note, digests_of, kept_parts
from .recording import LOOK, Say


NODE = "node"
OLDEST = 18
SOURCES = TOP / "page" / "machine"
# A file of the page has so many bytes at most.
MOST_FILE = 1 << 28
MOST_ROM = 1 << 16
# What a browser calls the keys that qemu names otherwise: their places, and what they type with
# Shift and without.
PLACES = {
    "ret": "Enter",
    "esc": "Escape",
    "tab": "Tab",
    "backspace": "Backspace",
    "up": "ArrowUp",
    "down": "ArrowDown",
    "left": "ArrowLeft",
    "right": "ArrowRight",
    "pgup": "PageUp",
    "pgdn": "PageDown",
    "home": "Home",
    "end": "End",
    "insert": "Insert",
    "delete": "Delete",
    "caps_lock": "CapsLock",
    "num_lock": "NumLock",
    "scroll_lock": "ScrollLock",
    "shift": "ShiftLeft",
    "shift_r": "ShiftRight",
    "ctrl": "ControlLeft",
    "ctrl_r": "ControlRight",
    "alt": "AltLeft",
    "alt_r": "AltRight",
    "kp_enter": "NumpadEnter",
    "kp_add": "NumpadAdd",
    "kp_subtract": "NumpadSubtract",
    "kp_multiply": "NumpadMultiply",
    "kp_divide": "NumpadDivide",
    "kp_decimal": "NumpadDecimal",
    **{f"f{number}": f"F{number}" for number in range(1, 12)},
    **{f"kp_{digit}": f"Numpad{digit}" for digit in range(10)},
}
LETTERS = {
    "spc": ("Space", "  "),
    "minus": ("Minus", "-_"),
    "equal": ("Equal", "=+"),
    "bracket_left": ("BracketLeft", "[{"),
    "bracket_right": ("BracketRight", "]}"),
    "semicolon": ("Semicolon", ";:"),
    "apostrophe": ("Quote", "'\""),
    "grave_accent": ("Backquote", "`~"),
    "backslash": ("Backslash", "\\|"),
    "comma": ("Comma", ",<"),
    "dot": ("Period", ".>"),
    "slash": ("Slash", "/?"),
    "less": ("IntlBackslash", "<>"),
    **{
        letter: (f"Key{letter.upper()}", letter + letter.upper())
        for letter in map(chr, range(ord("a"), ord("z") + 1))
    },
    **{str(digit): (f"Digit{digit}", f"{digit}{')!@#$%^&*('[digit]}") for digit in range(10)},
}
MODIFIERS = {"Shift": "shiftKey", "Control": "ctrlKey", "Alt": "altKey"}


@dataclass(frozen=True)
class PageMachine:
    """What the page's machine runs, what is done to it in this order, and how long: see
    `recording.QemuMachine`.

    Seconds are the machine's own. `chosen` is the file of a ZIP that runs.
    """

    file: str
    deeds: Sequence[Deed]
    quiet: float = 3
    most: float = 60
    speed: Optional[str] = None
    rom: Optional[str] = None
    chosen: Optional[str] = None


def _part(name: str) -> dict[str, str]:
    """A key as a browser tells it."""
    if name in LETTERS:
        place, letters = LETTERS[name]
    elif name in PLACES:
        place = PLACES[name]
        letters = ""
    else:
        raise Trouble(f"`{name}` is no key of the page's machine")
    modifier = next((flag for front, flag in MODIFIERS.items() if place.startswith(front)), "")
    return {
        "code": place,
        "key": letters[:1] or place,
        "shifted": letters[1:] or place,
        "modifier": modifier,
    }


def _deed(deed: Deed) -> dict[str, Any]:
    keys = [[_part(name) for name in key.split("-")] for key in deed.keys]
    return {"at": deed.at, "keys": keys, "told": str(deed)}


def check_node() -> None:
    """Ends the work where node is lacking or too old, or the page's sources are not here."""
    if not SOURCES.is_dir():
        raise Trouble(
            (
                "the sources of the page are not here: they lie in the repository, and not in a"
                " release"
            ),
            str(SOURCES),
        )
    check_program(NODE)
    found = re.match(r"v(\d+)", run([NODE, "--version"], seconds=60))
    if found is None or int(found[1]) < OLDEST:
        raise Trouble(f"it is older than version {OLDEST}", NODE)


def _lay_request(machine: PageMachine, kept: Path, folder: Path) -> Path:
    """Lays what the machine runs into a folder, and the file that asks node for it."""
    (folder / "file").write_bytes(bytes_of(machine.file, MOST_FILE))
    if machine.rom is not None:
        (folder / "rom").write_bytes(bytes_of(machine.rom, MOST_ROM))
    is_typed = machine.speed or machine.rom or any(deed.keys for deed in machine.deeds)
    asked = {
        "file": str(folder / "file"),
        "name": Path(machine.file).name,
        "folder": str(kept.resolve()),
        "deeds": [_deed(deed) for deed in machine.deeds],
        "quiet": machine.quiet,
        "seconds": machine.most,
        "speed": machine.speed or USUAL_SPEED,
        "rom": None if machine.rom is None else str(folder / "rom"),
        "chosen": machine.chosen,
        "isTyped": bool(is_typed),
    }
    request = folder / "request"
    request.write_text(json.dumps(asked), "ascii")
    return request


def check_keys(deeds: Sequence[Deed]) -> None:
    """Ends the work, before it begins, where the page's machine lacks a key."""
    for deed in deeds:
        _deed(deed)


def record(machine: PageMachine, kept: Path, say: Say, progress: Progress) -> Note:
    """Leaves a trace, the dumps of screens and a note in a folder; `say` tells what may spoil
    them."""
    note = Note(PAGE_MACHINE, [Path(machine.file).name])
    given = [machine.file, *([] if machine.rom is None else [machine.rom])]
    note.software = {Path(name).name: digest for name, digest in digests_of(given).items()}
    with kept_parts(kept, note) as parts, ExitStack() as stack:
        folder = Path(stack.enter_context(tempfile.TemporaryDirectory(prefix="vga-recording-")))
        request = _lay_request(machine, kept, folder)
        answer = folder / "answer"
        said = stack.enter_context(open(folder / "said", "wb"))
        words: list[Word] = [
            "nice",
            "-n",
            "10",
            NODE,
            Path(__file__).with_suffix(".mjs"),
            request,
            answer,
        ]
        process = stack.enter_context(
            started(words, stdout=subprocess.PIPE, stderr=said, preexec_fn=end_with_parent)
        )
        keeper = Keeper(cast(BinaryIO, process.stdout), parts)
        stack.callback(keeper.end)
        process.stdout = None
        keeper.start()
        _wait(process, keeper, progress)
        if process.returncode:
            ended = f"it ended with status {process.returncode}"
            raise Trouble(said_last(folder / "said") or ended, machine.file)
        told = json.loads(answer.read_text("utf-8"))
        note.screens, note.refusals, note.ended = told["screens"], told["refusals"], "all was done"
    for line in told["said"]:
        say(line[:MOST_IN_LINE])
    return note


def _wait(process: "subprocess.Popen[bytes]", keeper: Keeper, progress: Progress) -> None:
    """Waits until the machine has ended, and all its lines are kept."""
    while process.poll() is None:
        _check_kept(keeper)
        if progress.is_due():
            progress.tell(f"recording: {keeper.size:,} bytes")
        time.sleep(LOOK)
    keeper.join(DRAINING)
    _check_kept(keeper)


def _check_kept(keeper: Keeper) -> None:
    if keeper.full:
        raise Trouble(f"{keeper.full}: --seconds ends the machine sooner", NODE)
