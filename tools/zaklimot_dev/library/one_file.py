"""Makes the adapter as one C file: of the page's module, by wasm2c, between two parts written by
hand.

What wasm2c writes is read strictly: each function is made of statements that are known here, and
anything else ends the work. Of its frame of macros nothing is kept; c/memory.c has the few
that the functions need.
"""

from __future__ import annotations

import re
import tempfile
from pathlib import Path
from typing import Iterator, NamedTuple

from zaklimot.commands import TOP
from zaklimot.commands.core.processes import run
from zaklimot.commands.core.streams import filled
from zaklimot.commands.core.trouble import Trouble
from zaklimot_dev.page.making import WASM_OPT

# The file as the repository has it, and the program over it.
C_FILE, PROGRAM = (TOP / "portable" / name for name in ("zaklimot.c", "vga.c"))
HAND = Path(__file__).resolve().parent / "c"
HEAD = HAND / "head.c"
MEMORY = HAND / "memory.c"
CALLS = [
    HAND / name for name in ("cards.c", "pictures.c", "readings.c", "scripts.c", "explained.c")
]
# The program that writes C, and the name that the module gets in what it writes.
WASM2C = "wasm2c"
NAME = "zaklimot"
TRANSLATORS = (WASM_OPT, WASM2C)
# The file has at most so many bytes.
MOST_BYTES = 3_500_000
INSTANCE = f"Z_{NAME}_instance_t"
NAMED = "what wasm2c wrote"
# The parts of what wasm2c writes.
PROTOTYPE = re.compile(rf"^static (\w+) (w2c_\w+)\({INSTANCE}\*(.*)\);$", re.M)
GLOBAL = re.compile(r"^  instance->(w2c_g\d+) = (\d+)(u|ull);$", re.M)
HEAP = re.compile(r"^  instance->w2c___heap_base = (\d+)ull;$", re.M)
PAGES = re.compile(r"^  wasm_rt_allocate_memory\(&instance->w2c_memory, (\d+), 65536\);$", re.M)
DATA = re.compile(
    r"^static const u8 data_segment_data_(w2c_d\d+)\[\] = \{\n(.*?)^\};$", re.M | re.S
)
LOADED = re.compile(
    r"^  LOAD_DATA\(instance->w2c_memory, (\d+)u, data_segment_data_(w2c_d\d+), (\d+)\);$", re.M
)
FUNCTION = re.compile(
    (
        rf"^static (\w+) (w2c_\w+)\({INSTANCE}\* instance((?:, \w+ \w+|,\s+\w+ \w+)*)\)"
        r" \{\n(.*?)^\}$"
    ),
    re.M | re.S,
)
FIRST_FUNCTION = re.compile(rf"^static \w+ w2c_\w+\({INSTANCE}\* instance", re.M)
END = "\n/* export: "
# What is written otherwise, in this order.
REPLACED = (
    (re.compile(r"&instance->w2c_memory, &instance->w2c_memory, "), ""),
    (
        re.compile(r"wasm_rt_grow_memory\(&instance->w2c_memory, (\w+)\);"),
        r"memory_grow(self, \1);",
    ),
    (re.compile(r"&instance->w2c_memory, "), ""),
    (re.compile(r"instance->w2c_memory\.pages"), "self->pages"),
    (re.compile(r"^  FUNC_EPILOGUE;\n", re.M), ""),
    (re.compile(r"\binstance\b"), "self"),
)
# How a function ends that meets a trap. One that answers a number of 32 bits may be a call, which
# answers its status.
LEAVES = {"void": "return;", "u32": "return ZAK_BROKEN;", "u64": "return 0;"}
GROWS = "memory_grow(self"
TRAPS = "UNREACHABLE;"
# A division, which traps where its divisor is 0.
DIVISION = re.compile(r"^( *)(\w+) = (DIV|REM)_U\((\w+), (\w+)\);$", re.M)
OPERATORS = {"DIV": "/", "REM": "%"}
CALLED = re.compile(r"\b(w2c_(?:f\d+|page_\w+|zak_\w+))\(self")
# The words that a function may consist of, beside its names and numbers.
WORDS = frozenset(
    """
    u8 u16 u32 u64 s8 s16 s32 s64 if else switch case default goto return self pages memory_grow
    UNREACHABLE
    i32_load8_u i32_load8_s i32_load16_u i32_load i32_store8 i32_store16 i32_store
    i64_load8_u i64_load8_s i64_load16_u i64_load32_u i64_load
    i64_store8 i64_store16 i64_store32 i64_store memory_copy memory_fill DIV_U REM_U I32_CTZ
    I64_CTZ FUNC_PROLOGUE
    """.split()
)
NAMES = re.compile(r"w2c_(?:[iljpgfBL]\d+|Bfunc|page_take|page_give|zak_\w+)")
WORD = re.compile(r"\b[A-Za-z_]\w*")
# Calls keep their names, behind this word.
# The calls of a single cycle, and the bits of the number that each gives. Each begins with a quick
# way, which calls nothing, and ends with its last call.
CYCLES = {"put": 0, "put_word": 0, "get": 8, "get_word": 16, "out": 0, "out_word": 0, "in": 8}
LAST_CALL = re.compile(r"  (w2c_i0) = (w2c_f\d+)\(self, (.*)\);")
AFTER_LAST_CALL = ("  goto w2c_Bfunc;", "  w2c_Bfunc:;")
ANSWERED = "  return w2c_i0;"
SHOWN = re.compile(r"\bw2c_((?:zak|page)_\w+)")


class Function(NamedTuple):
    """A function that wasm2c wrote: what it answers, its name, its parameters and its
    statements."""

    answer: str
    name: str
    parameters: str
    body: str


def _functions(text: str) -> list[Function]:
    first = FIRST_FUNCTION.search(text)
    if first is None or END not in text:
        raise Trouble("it has no functions", NAMED)
    part = text[first.start() : text.index(END)]
    found = [Function(*match.groups()) for match in FUNCTION.finditer(part)]
    rest = FUNCTION.sub("", part).strip()
    if rest:
        raise Trouble(f"this is no function that is known: {rest.splitlines()[0]}", NAMED)
    return found


def _division(found: re.Match[str]) -> str:
    blanks, name, kind, dividend, divisor = found.groups()
    return f"{blanks}if ({divisor} == 0) {TRAPS} {name} = {dividend} {OPERATORS[kind]} {divisor};"


def _rewritten(body: str) -> str:
    for pattern, new in REPLACED:
        body = pattern.sub(new, body)
    unknown = {word for word in WORD.findall(body) if not NAMES.fullmatch(word)} - WORDS
    if unknown:
        raise Trouble(f"it has words that are not known: {', '.join(sorted(unknown))}", NAMED)
    return DIVISION.sub(_division, body)


def _reaching(bodies: dict[str, str], word: str) -> frozenset[str]:
    """The functions that have this word, and those that call them, directly or by others."""
    found = {name for name, body in bodies.items() if word in body}
    while True:
        more = {name for name, body in bodies.items() if found & set(CALLED.findall(body))}
        if more <= found:
            return frozenset(found)
        found |= more


# A place in memory, as the module's lowering to 32 bits leaves it: the low half of an address.
LOW_HALF = re.compile(r" *(w2c_i\d+) = \(u32\)\((w2c_j\d+)\);")
SET = re.compile(r"\b(w2c_[ij]\d+) (?:[-+*/%&|^]|<<|>>)?= ")
ACCESS = re.compile(r"\b(?:i32|i64)_(?:load|store)\w*\(\(u64\)\((w2c_i\d+)\)")
MOVED = re.compile(r"\bmemory_(copy|fill)\((w2c_i\d+), (w2c_i\d+), (w2c_i\d+)\)")
# The arguments of these that are places or lengths.
WIDE = {"copy": (0, 1, 2), "fill": (0, 2)}


class Places:
    """Gives each access its address in full: a module's lowering to 32 bits takes the low half of
    it."""

    def __init__(self) -> None:
        self._whole: dict[str, str] = {}

    def _whole_of(self, half: str) -> str:
        if half not in self._whole:
            raise Trouble(f"the place {half} is not the low half of an address", NAMED)
        return self._whole[half]

    def line(self, line: str) -> str:
        """A statement with whole addresses."""
        found = ACCESS.search(line)
        if found is not None:
            line = line.replace(f"(u64)({found[1]})", self._whole_of(found[1]))
        found = MOVED.search(line)
        if found is not None:
            words = list(found.groups()[1:])
            for place in WIDE[found[1]]:
                words[place] = self._whole_of(words[place])
            line = line.replace(found[0], f"memory_{found[1]}({', '.join(words)})")
        # What is set has no old meaning, and neither has the half of an address that is set.
        changed = set(SET.findall(line))
        for name in [name for name, whole in self._whole.items() if changed & {name, whole}]:
            del self._whole[name]
        half = LOW_HALF.fullmatch(line)
        if half is not None:
            self._whole[half[1]] = half[2]
        return line


class Cycle(NamedTuple):
    """A call of a single cycle: its function in the module, and the bits of the number that it
    gives.

    The module's function gets the caller's card, and where that number goes. It ends with its last
    call, which closes the card after a trap. So a compiler saves no register for it in the quick
    way.
    """

    name: str
    bits: int

    @property
    def _given(self) -> str:
        return f", uint{self.bits}_t *value" if self.bits else ""

    @property
    def _gives(self) -> str:
        if not self.bits:
            return ""
        return f"    if (status == ZAK_OK)\n        *value = told{self.bits}(self, 0);\n"

    def parameters(self, parameters: str) -> str:
        """The parameters of its function, which has these in the module."""
        return f", zak_card *card{self._given}{parameters}"

    def body(self, body: str, trapping: frozenset[str]) -> str:
        """The statements, with each last call as one of a function of its own. No other call may
        trap."""
        lines = body.splitlines()
        for number, line in enumerate(lines):
            last = LAST_CALL.fullmatch(line)
            if last is not None and lines[number + 1] in AFTER_LAST_CALL:
                value = ", value" if self.bits else ""
                lines[number] = f"  return ended_{last[2]}(self, card{value}, {last[3]});"
            elif trapping & set(CALLED.findall(line)):
                raise Trouble(f"{self.name} goes on after a call that may trap", NAMED)
            elif line == ANSWERED and self.bits:
                given = f"*value = told{self.bits}(self, 0);"
                lines[number] = f"  if (w2c_i0 == ZAK_OK) {given}\n{line}"
        return "\n".join(lines)

    def _last_calls(self, body: str) -> Iterator[str]:
        lines = body.splitlines()
        for line, after in zip(lines, lines[1:]):
            last = LAST_CALL.fullmatch(line)
            if last is not None and after in AFTER_LAST_CALL:
                yield last[2]

    def endings(self, body: str, functions: dict[str, Function]) -> Iterator[str]:
        """The functions that its last calls are."""
        for name in self._last_calls(body):
            function = functions[name]
            words = [word.split()[-1] for word in function.parameters.split(",")[1:]]
            yield _short(
                f"APART static u32 ended_{name}(module *self"
                f"{self.parameters(function.parameters)})\n{{\n"
                f"    u32 status = {name}(self, {', '.join(words)});\n{self._gives}"
                "    return NEVER(self->is_broken) ? close_broken(card) : status;\n}\n"
            )


class Writer:
    """Writes functions, each with m as its memory, anew where that may have moved, and with its
    traps.

    A trap ends the function, and those that have called it, since each looks for one behind the
    call.
    """

    def __init__(self, bodies: dict[str, str], cycles: dict[str, Cycle]) -> None:
        self._bodies = bodies
        self._cycles = cycles
        self._growing = _reaching(bodies, GROWS)
        self._trapping = _reaching(bodies, TRAPS)

    def _line(self, line: str, has_memory: bool, leave: str) -> str:
        called = set(CALLED.findall(line))
        if has_memory and (GROWS in line or called & self._growing):
            line += " m = self->memory;"
        if called & self._trapping:
            line += f" if (NEVER(self->is_broken)) {leave}"
        return line.replace(TRAPS, f"{{ self->is_broken = true; {leave} }}")

    def written(self, function: Function) -> str:
        """A function as C."""
        leave = LEAVES[function.answer]
        body, parameters = self._bodies[function.name], function.parameters
        if function.name in self._cycles:
            cycle = self._cycles[function.name]
            body, parameters = cycle.body(body, self._trapping), cycle.parameters(parameters)
        has_memory = re.search(r"_(?:load|store|copy|fill)", body) is not None
        begin = "  u8 *m = self->memory;\n" if has_memory else ""
        body = body.replace("  FUNC_PROLOGUE;\n", begin, 1)
        places = Places()
        lines = (self._line(places.line(line), has_memory, leave) for line in body.splitlines())
        head = f"static {function.answer} {function.name}(module *self{parameters})"
        return _short("\n".join((f"\n{head} {{", *lines, "}\n")))


def _short(text: str) -> str:
    return SHOWN.sub(r"module_\1", text).replace("w2c_", "")


def _written(text: str) -> Iterator[str]:
    """The functions as C with names of its own, each declared before the first."""
    functions = _functions(text)
    bodies = {function.name: _rewritten(function.body) for function in functions}
    cycles = {f"w2c_zak_{name}": Cycle(name, bits) for name, bits in CYCLES.items()}
    writer = Writer(bodies, cycles)
    for answer, name, parameters in PROTOTYPE.findall(text):
        if name in cycles:
            parameters = cycles[name].parameters(parameters)
        yield _short(f"static {answer} {name}(module *{parameters});\n")
    named = {function.name: function for function in functions}
    for name, cycle in cycles.items():
        yield from cycle.endings(bodies[name], named)
    for function in functions:
        yield writer.written(function)


def _start(text: str) -> Iterator[str]:
    """How a module begins: its data, and the function that lays them and sets the globals."""
    data = dict(DATA.findall(text))
    for name, numbers in data.items():
        # Trailing blanks go.
        yield (
            f"static const u8 {_short(name)}[] = {{\n{re.sub(' +$', '', numbers, flags=re.M)}}};\n"
        )
    yield "\nstatic void start(module *self)\n{\n"
    for place, name, length in LOADED.findall(text):
        yield f"    memcpy(self->memory + {place}u, {_short(name)}, {length});\n"
    for name, value, kind in GLOBAL.findall(text):
        yield f"    self->{_short(name)} = {value}{kind};\n"
    yield "}\n"


def _constants(text: str) -> str:
    globals_of = GLOBAL.findall(text)
    pages = PAGES.findall(text)
    heap = HEAP.findall(text)
    loaded = {name for _, name, _ in LOADED.findall(text)}
    if (
        not globals_of
        or len(pages) != 1
        or len(heap) != 1
        or loaded != {name for name, _ in DATA.findall(text)}
    ):
        raise Trouble("its memory, globals or data are not as they are known", NAMED)
    kinds = {"u": "u32", "ull": "u64"}
    fields = " ".join(f"{kinds[kind]} {_short(name)};" for name, _, kind in globals_of)
    return (
        f"#define FIRST_PAGES {pages[0]}u\n#define HEAP_BASE {heap[0]}u\n"
        f"#define MODULE_GLOBALS {fields}\n"
    )


# Warnings that tell nothing of what a program has written.
QUIET = (
    "unused-variable",
    "unused-label",
    "unused-but-set-variable",
    "unused-function",
    "unused-parameter",
    "conversion",
    "sign-conversion",
)


def _quiet(code: str) -> str:
    ignored = "".join(f'#pragma GCC diagnostic ignored "-W{name}"\n' for name in QUIET)
    begin = f"#if defined(__GNUC__)\n#pragma GCC diagnostic push\n{ignored}#endif\n"
    return f"{begin}\n{code}\n#if defined(__GNUC__)\n#pragma GCC diagnostic pop\n#endif\n"


def number_of(program: str) -> str:
    """The number of a program's version: the last word of the line that tells it."""
    return run([program, "--version"]).split()[-1]


def one_file(text: str) -> str:
    """The C file, of what wasm2c has written of the module."""
    parts = [
        filled(
            HEAD,
            LOWERING=f"{WASM_OPT} {number_of(WASM_OPT)}",
            TRANSLATOR=f"{WASM2C} {number_of(WASM2C)}",
        ),
        _constants(text),
        MEMORY.read_text("ascii"),
        _quiet("".join(_written(text))),
        "".join(_start(text)),
        *(path.read_text("ascii") for path in CALLS),
    ]
    whole = "\n".join(parts)
    if len(whole) > MOST_BYTES:
        raise Trouble(
            f"it would have {len(whole):,} bytes, and {MOST_BYTES:,} are the most", "the C file"
        )
    return whole


def written_by_wasm2c(module: bytes) -> str:
    """What wasm2c writes of a module of 32-bit memory."""
    with tempfile.TemporaryDirectory(prefix="vga-library-") as name:
        source, made = Path(name) / "module.wasm", Path(name) / "module.c"
        source.write_bytes(module)
        run([WASM2C, source, "-n", NAME, "-o", made])
        return made.read_text("ascii")
