"""What a fault of the program means, in the file where it arose: the program judges, and this looks
for the reason."""

from functools import partial
from typing import Callable, Optional

from zaklimot.format import (
    FAULT,
    FAULTS,
    FONT_BYTES,
    FORMS,
    HEADERS,
    MAGIC,
    MOST_BYTES,
    MOST_STEPS,
    OPCODES,
    SHOWN,
    Script,
    ScriptFault,
    read,
)
from zaklimot.format.table import END_CODE, REPEAT_CODE
from zaklimot.commands.core.streams import read_at_most
from zaklimot.commands.core.trouble import Trouble
from zaklimot.commands.script.reading import text_of

from .mistakes import Mistake, marked_lines, mistake_in
from .wordings import WORDINGS, said

# What is said of a file, and of a fault; the page says the same.
_of_file, _of_fault = (partial(said, part) for part in ("files", "faults"))
UNKNOWN = "refused, and I can't say why"
# What is told where there is no library that could be asked.
UNTOLD = "the reason is not told: {}"
# Files of other kinds, by what they begin with; bytes that no text has; and how much of a file's
# front is looked at.
FOREIGN = {bytes.fromhex(begin): what for begin, what in WORDINGS["foreign"]}
CONTROLS = set(range(32)) - set(b"\t\n\v\f\r")
LOOKED_AT = 200
SHOWS = FORMS["show regs"].opcode
# The bytes of a font whose characters have 16, 14 or 8 rows.
FONTS_OF_ONE_HEIGHT = (4096, 3584, 2048)
TOO_LONG = f"F6 TooLong: a script has at most {MOST_BYTES:,} bytes"
# What the program could not do for want of something of the system's.
SYSTEM = {
    "WriteFault": "what the program writes could not be written: the disk may be full",
    "OutOfMemory": "the system gave the program no more memory",
}


def read_script(path: str) -> bytes:
    """The bytes of a script's file. One that is too long is told as the program tells it."""
    return read_at_most(path, MOST_BYTES, TOO_LONG)


def script_of(data: bytes, name: str) -> Script:
    """A script read whole; a Trouble with its fault, as the program has it, and the reason, where
    it is no good."""
    try:
        return read(data)
    except ScriptFault as fault:
        line = fault.place if fault.fault.place == "line" else None
        raise Trouble(
            f"{fault.answer}: {reason_of(fault.fault.name, fault.place, data)}", name, line
        ) from fault


def explained(fault: str, script: str, fonts: str) -> str:
    """A fault of a run with the file, the line and the reason, as lines of text."""
    found = FAULT.search(fault)
    if found is None:
        return f"{script}: {fault.strip() or 'the program ended without a word'}"
    name = found[2]
    place = None if found[3] is None else int(found[3])
    if name == "ReadFault":
        file, reason = _unread(script, fonts)
    elif name == "FontSize":
        file = fonts
        reason = _font_size(_read(fonts)[0])
    elif name in FAULTS and name not in SYSTEM:
        file = f"{script}:{place}" if FAULTS[name].place == "line" else script
        reason = reason_of(name, place, _read(script)[0])
    else:
        file = script
        reason = SYSTEM.get(name, UNKNOWN)
    return f"{file}: {found[0]}: {reason}"


def _unread(script: str, fonts: str) -> tuple[str, str]:
    """The file of a run that can't be read, and why; the script, where both can by now."""
    for path, what in ((fonts, "font file"), (script, "script")):
        _, why = _read(path)
        if why:
            return path, f"the {what} can't be read: {why}"
    return script, UNKNOWN


def _font_size(data: bytes) -> str:
    """What is told of the bytes of a font file that are too few or too many."""
    count = f"{len(data):,}" if len(data) <= MOST_BYTES else f"more than {MOST_BYTES:,}"
    hint = ""
    if len(data) in FONTS_OF_ONE_HEIGHT:
        hint = (
            f"; a font of {len(data) // 256} rows alone has so many, and a font file has those of"
            " 8, 14 and 16 rows"
        )
    elif data.startswith(MAGIC):
        hint = "; it is a script of bytes"
    return wrong_font_bytes(count) + hint


def wrong_font_bytes(count: str) -> str:
    """What is told of a font file of so many bytes, which are too few or too many."""
    return f"the font file has {count} bytes, and {FONT_BYTES:,} are right"


def _read(path: str) -> tuple[bytes, Optional[str]]:
    """A file's bytes, but no more than one past the most; none where it can't be read, and why."""
    try:
        with open(path, "rb") as stream:
            return stream.read(MOST_BYTES + 1), None
    except OSError as error:
        return b"", error.strerror


def reason_of(name: str, place: Optional[int], data: bytes) -> str:
    """The reason of a fault of this name in the bytes of a script, as far as it is found."""
    if name in OF_SCRIPTS:
        return OF_SCRIPTS[name](data)
    if name == "TooMany":
        named = "too many anywhere" if place is None else "too many"
        return _of_fault(named, place=place, most=MOST_STEPS)
    if name in OF_PLACES and place is not None:
        return OF_PLACES[name](data, place)
    return UNKNOWN


def _too_long(data: bytes) -> str:
    if data.startswith(MAGIC):
        return _of_fault("too long", what=_of_fault("file has"), most=MOST_BYTES)
    mistake = _mistake(data, 0)
    return UNKNOWN if mistake is None else mistake.reason


def _mistake(data: bytes, number: int) -> Optional[Mistake]:
    """What the library says is wrong in a line of a text, or of its length; None where it says
    nothing of that."""
    try:
        mistake = mistake_in(data)
    except Trouble as trouble:
        return Mistake(number, 0, 0, UNTOLD.format(str(trouble).partition("\n")[0]))
    return mistake if mistake is not None and mistake.line == number else None


def _bad_magic(data: bytes) -> str:
    none = not_a_script(data)
    looks = _of_file("a text") if data and none is None else none or _of_file("no script")
    begins = " ".join(f"{byte:02X}" for byte in data[:4]) or _of_fault("nothing")
    return _of_fault("magic", begins=begins, looks=looks)


def _bad_version(data: bytes) -> str:
    versions = " and ".join(f"{version:02X}" for version in HEADERS)
    return _of_fault("version", version=data[4], versions=versions)


def _truncated(data: bytes, place: int) -> str:
    if place >= len(data):
        return _of_fault("no version")
    name = OPCODES.get(data[place], "")
    return _of_fault("cut off", name=name, place=place, count=len(data) - place)


def _bad_line(data: bytes, number: int) -> str:
    lines = data.split(b"\n")
    whole = _wrong_whole(data) if number == 1 else None
    if whole is not None or not 1 <= number <= len(lines):
        return whole or UNKNOWN
    mistake = _mistake(data, number) or Mistake(number, 0, 0, UNKNOWN)
    shown = marked_lines(text_of(lines[number - 1]), mistake)
    return "\n  ".join([mistake.reason, *shown])


def _wrong_whole(data: bytes) -> Optional[str]:
    """What is wrong with a text as a whole that its first line shows."""
    if data.startswith(MAGIC):
        return _of_file("bytes")
    if _is_utf_16(data):
        return _of_file("UTF-16")
    if data.startswith(b"\xef\xbb\xbf"):
        return _of_file("byte order mark")
    none = not_a_script(data)
    if none is not None:
        return none
    if b"\n" not in data and b"\r" in data.strip():
        return _of_file("carriage returns")
    return None


def not_a_script(data: bytes) -> Optional[str]:
    """What a file is that is neither a text nor bytes of a script; None where it may be one."""
    for begin, what in FOREIGN.items():
        if data.startswith(begin):
            return _of_file("foreign", what=what)
    if not CONTROLS & set(data[:LOOKED_AT]):
        return None
    if len(data) == FONT_BYTES:
        return _of_file("foreign", what=_of_file("font file"))
    return _of_file("no text")


def _is_utf_16(data: bytes) -> bool:
    """Whether each other byte of a file's front is 0, as of letters of two bytes, and the others
    are a text."""
    begin = 2 if data.startswith((b"\xff\xfe", b"\xfe\xff")) else 0
    pairs = data[begin : begin + LOOKED_AT // 2 * 2]
    halves = pairs[0::2], pairs[1::2]
    return any(
        high and not any(high) and low and not CONTROLS & set(low)
        for low, high in (halves, halves[::-1])
    )


def _bad_step(data: bytes, place: int) -> str:
    if place >= len(data):
        return UNKNOWN
    opcode = data[place]
    kind = data[place + 1 : place + 2]
    if opcode in (REPEAT_CODE, END_CODE) and data[4:5] == b"\2":
        name = "bad repeat" if opcode == REPEAT_CODE else "bad end"
        return _of_fault(name, name=OPCODES[opcode], place=place)
    if opcode not in OPCODES or opcode in (REPEAT_CODE, END_CODE):
        return _of_fault("no opcode", place=place, opcode=opcode, last=SHOWS)
    if opcode == SHOWS and kind and kind[0] >= len(SHOWN):
        return _of_fault("no kind", place=place, kind=kind[0], last=len(SHOWN) - 1)
    if opcode == SHOWS:
        return _of_fault("bad plane", place=place)
    return UNKNOWN


# The reasons of faults, from the bytes of the script alone, and from the place that a fault names.
OF_SCRIPTS: dict[str, Callable[[bytes], str]] = {
    "TooLong": _too_long,
    "BadMagic": _bad_magic,
    "BadVersion": _bad_version,
}
OF_PLACES: dict[str, Callable[[bytes, int], str]] = {
    "BadLine": _bad_line,
    "Truncated": _truncated,
    "BadStep": _bad_step,
}
