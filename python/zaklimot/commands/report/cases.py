"""The suite's list of cases, and the script that each of them runs."""

import re
from io import BytesIO
from itertools import islice, takewhile
from pathlib import Path
from typing import Iterator, NamedTuple, Optional

from zaklimot.format import FAULT, MOST_BYTES, STATE, Answer, decimal, lines_in, steps_in
from zaklimot.format.report import REFUSAL, VALUE
from zaklimot.commands.core.files import STANDARD, name_of
from zaklimot.commands.core.streams import bytes_of, read_at_most
from zaklimot.commands.core.trouble import Trouble
from zaklimot.commands.core.words import MOST_STEP

from .report import Expected


CASE = re.compile(r"(?P<bytes>bytes )?(?P<name>[^ ]+)( until (?P<steps>[0-9]+))?")
HEX = re.compile(r"([0-9A-Fa-f]{2})(\*([1-9][0-9]{0,7}))?")
# A script that is too long has a few bytes more than the longest.
MOST_LISTED = MOST_BYTES + (1 << 16)
# So much of a step is shown.
MOST_WORDS = 60
# The line of a fault has at most so many bytes.
MOST_FAULT = 100
# How the registers of a call begin in its answer.
CALLED = "ax="
# What a run that stops after so many steps shows, as if these steps stood next.
STATE_DUMPS = "".join(f"{step}\n" for step in STATE).encode()


class Case(NamedTuple):
    """A case: a script, and the report that is expected of it."""

    name: str
    folder: Path
    fonts: Optional[Path]
    front: Optional[Path]
    until: Optional[int]
    is_bytes: bool

    @property
    def source(self) -> Path:
        """The file of its script, as text or as digits of bytes."""
        return self.folder / (self.name + (".hex" if self.is_bytes else ".vga"))

    @property
    def suffix(self) -> str:
        """How the name of a file ends that holds its script as it is run."""
        return ".bin" if self.is_bytes else ".vga"

    @property
    def expected(self) -> Path:
        """The file of its expected report."""
        return self.folder / (self.name + ".txt")

    def rule(self) -> str:
        """The rule that it shows: the first line of its first comment, or else its name."""
        for line in bytes_of(self.source, MOST_BYTES).splitlines():
            _, mark, comment = line.partition(b";")
            text = comment.decode("utf-8", "replace").strip()
            if mark and text:
                return printable(text)
        return self.name

    def script(self) -> bytes:
        """Its whole script: text, with what stands in front of it, or bytes, where `XX*N` is N
        times the byte."""
        source = bytes_of(self.source, MOST_BYTES)
        if not self.is_bytes:
            return (bytes_of(self.front, MOST_BYTES) if self.front else b"") + source
        return b"".join(self._listed_bytes(source))

    def _listed_bytes(self, source: bytes) -> Iterator[bytes]:
        """The bytes that the lines of a file list, word by word."""
        left = MOST_LISTED
        for number, line in enumerate(source.decode("utf-8", "replace").splitlines(), 1):
            for word in line.partition(";")[0].split():
                found = HEX.fullmatch(word)
                if found is None:
                    raise Trouble(f"'{word[:20]}' is no byte", str(self.source), number)
                count = int(found[3] or "1")
                left -= count
                if left < 0:
                    told = f"it lists more than {MOST_LISTED:,} bytes"
                    raise Trouble(told, str(self.source), number)
                yield bytes.fromhex(found[1]) * count

    def place_of(self, number: int) -> str:
        """A step with the file and the line where it stands; empty where it stands in no text."""
        text = b"" if self.is_bytes or number < 1 else self.script()
        step = next(islice(steps_in(BytesIO(text)), max(number - 1, 0), None), None)
        if step is None:
            return ""
        lines = bytes_of(self.front, MOST_BYTES).count(b"\n") if self.front else 0
        file = self.source
        line = step.number - lines
        if self.front is not None and line <= 0:
            file = self.front
            line = step.number
        return printable(f"`{step.words[:MOST_WORDS]}`, {file.relative_to(self.folder)}:{line}")

    def expects_fault(self) -> bool:
        """Whether the script has a mistake, or another fault ends the run before its first step."""
        with open(self.expected, "rb") as stream:
            return FAULT.match(stream.read(MOST_FAULT).decode("ascii", "replace")) is not None

    def stopped_script(self) -> bytes:
        """The script that does the same where none can stop it: its first steps, and dumps of the
        state.

        One with a mistake stays whole, since all of it is judged before the first step.
        """
        if self.until is None or self.expects_fault():
            return self.script()
        return _front_of(self.script(), self.until) + STATE_DUMPS

    def has_answers_of_machine(self) -> bool:
        """Whether a step before the first that is to be refused has an answer that a machine can
        give."""
        steps = (
            ()
            if self.expects_fault()
            else takewhile(lambda step: step.kind != REFUSAL, self.expected_steps())
        )
        return any(step.kind == VALUE or step.answer.startswith(CALLED) for step in steps)

    def handed(self, is_for_machine: bool, can_stop: bool) -> bytes:
        """Its script as a command gets it, which can stop a run or not.

        A text for a machine ends before the first step that is to be refused, and has its blocks
        spelt out then. All others are handed over as they stand.
        """
        if self.is_bytes or can_stop and not is_for_machine:
            return self.script()
        script = self.stopped_script()
        steps = self.expected_steps() if is_for_machine else iter(())
        refused = next((step for step in steps if step.kind == REFUSAL), None)
        return script if refused is None else _front_of(script, refused.number - 1)

    def expected_steps(self) -> Iterator[Answer]:
        """The steps of the report that is expected."""
        with open(self.expected, "rb") as stream:
            yield from Expected(stream, str(self.expected)).steps()


def printable(text: str, others: str = "") -> str:
    """A text that no terminal takes for more than a text. Other characters may be kept."""
    return "".join(
        character if character.isprintable() or character in others else "?" for character in text
    )


def _front_of(text: bytes, steps: int) -> bytes:
    """The lines of a script up to so many steps, whole lines each; those of version 2 without
    blocks."""
    first = next(lines_in(BytesIO(text)), None)
    lines = list(islice(steps_in(BytesIO(text)), steps + 1))
    if first is not None and first.has_blocks:
        return "".join(f"{line.words}\n" for line in lines[:steps]).encode(
            "utf-8", "surrogateescape"
        )
    if len(lines) <= steps:
        return text if text.endswith(b"\n") else text + b"\n"
    return b"".join(line + b"\n" for line in text.split(b"\n")[: lines[steps].number - 1])


def _steps_of(digits: Optional[str], name: str, number: int) -> Optional[int]:
    """The steps after which a case is stopped; a Trouble where no program takes so many."""
    if digits is None:
        return None
    steps = decimal(digits, MOST_STEP)
    if steps is None:
        raise Trouble(f"a run is stopped after at most {MOST_STEP:,} steps", name, number)
    return steps


def _found_case(line: str, name: str, number: int) -> re.Match[str]:
    """The parts of a line that names a case; a Trouble where it names none of the list's folder."""
    found = CASE.fullmatch(line.strip())
    if found is None:
        raise Trouble(f"no case: '{line[:40]}'", name, number)
    place = Path(found["name"])
    if ".." in place.parts or place.is_absolute():
        raise Trouble(f"a case outside the list's folder: '{found['name'][:40]}'", name, number)
    return found


def read_cases(path: str) -> list[Case]:
    """The cases of a list, but for those whose expected report is wrong on purpose."""
    folder = (Path(".") if path == STANDARD else Path(path).parent).absolute()
    name = name_of(path)
    fonts: Optional[Path] = None
    front: Optional[Path] = None
    cases = []
    lines = read_at_most(path, MOST_BYTES).decode("utf-8", "replace").splitlines()
    for number, line in enumerate(lines, 1):
        if "\0" in line:
            raise Trouble("the line has a byte 00, and no name of a file has one", name, number)
        word, _, rest = line.strip().partition(" ")
        if not word or word.startswith("#") or word == "wrong":
            continue
        if word == "fonts":
            fonts = folder / rest
        elif word == "front":
            front = None if rest == "none" else folder / rest
        else:
            found = _found_case(line, name, number)
            until = _steps_of(found["steps"], name, number)
            is_bytes = found["bytes"] is not None
            cases.append(Case(found["name"], folder, fonts, front, until, is_bytes))
    return cases
