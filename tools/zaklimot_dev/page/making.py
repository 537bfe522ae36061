"""Makes the module: the crate's proof, its LLVM module, and of that, turned from x86-64 to wasm64,
the linked module.

The proved code has addresses of 64 bits. The linked module's memory is made one of 32 bits, which
every browser knows, by Debian's binaryen. It is held to what the page relies on: what it imports
and exports, and what it calls.
"""

from __future__ import annotations

import argparse
import io
import re
import shlex
import tempfile
from contextlib import contextmanager
from pathlib import Path
from typing import BinaryIO, Callable, Iterator, NamedTuple, Optional, Sequence

from zaklimot.commands.core.processes import Hearer, Word, ended_well
from zaklimot.commands.core.progress import Progress
from zaklimot.commands.core.trouble import Trouble
from zaklimot.commands.core.version import HEADER, calls_of
from zaklimot_dev.library.making import CRATE, KEPT, kit_folder, kit_line, proving_words
from zaklimot.commands.script.crates import phases


MAGIC = b"\0asm\1\0\0\0"
# A section for tools, and the name of the one that tells the kit.
CUSTOM = 0
KIT = b"kit"
IMPORTS = 2
TABLES = 4
MEMORIES = 5
EXPORTS = 7
ELEMENTS = 9
FUNCTION = 0
# What the module exports besides the header's calls: its memory, where the heap begins, and how the
# page takes memory from it.
OWN = frozenset(("memory", "__heap_base", "page_take", "page_give"))
# A memory of 64-bit addresses.
IS_64 = 4
# What makes its addresses 32 bits wide: no address has more, since memory ends below 4 GiB.
WASM_OPT = "wasm-opt"
LOWERING = ("--enable-memory64", "--enable-bulk-memory", "--memory64-lowering")
SMALLER = "-O3"
MOST_MODULE = 16 << 20
NAME = "the module for x86-64"
TRIPLES = ("x86_64-unknown-linux-gnu", "wasm64-unknown-unknown")
WASM = TRIPLES[1]
LAYOUTS = (
    "e-m:e-p270:32:32-p271:32:32-p272:64:64-i64:64-i128:128-f80:128-n8:16:32:64-S128",
    "e-m:e-p:64:64-p10:8:8-p20:8:8-i64:64-i128:128-n32:64-S128-ni:1:10:20",
)
CPU = "lime1"
# The attributes that are those of x86-64: its stack is probed page by page.
NATIVE = re.compile(r'"probe-stack"="inline-asm" "stack-probe-size"="\d+" "target-cpu"="x86-64-v2"')
# LLVM would make calls of these functions out of loops, and the module has none of them.
QUIET = '"no-builtin-bcmp" "no-builtin-memcmp" "no-builtin-strlen"'
ATTRIBUTES = f'nounwind {QUIET} "target-cpu"="{CPU}"'
# All that the module may call: these mean the same on both targets. What else it calls is to be
# looked at first.
INTRINSICS = frozenset(
    (
        "llvm.memset.p0.i64",
        "llvm.memmove.p0.p0.i64",
        "llvm.memcpy.p0.p0.i64",
        "llvm.cttz.i64",
        "llvm.trap",
    )
)
MEMORY_CALLS = frozenset(("rattle_alloc", "rattle_realloc", "rattle_dealloc"))
DECLARED = re.compile(r'^declare [^\n]*?@"?([^"(\n]+)"?\(', re.M)
# What a module for x86-64 alone may have, each with the words that tell it.
FOREIGN = {
    "inline assembly": re.compile(r"\basm (?:sideeffect |alignstack |inteldialect )*\""),
    "an address space": re.compile(r"\baddrspace\("),
    "a vector": re.compile(r"<\d+ x "),
    "a call by a pointer": re.compile(r"\bcall [^@\n]*?%[\w.]+\("),
}
# A function that the module shows: what it answers, its name, its parameters, and the number of its
# attributes.
EXPORT = re.compile(r"^define noundef (\S+) @(\w+)\((.*)\) #(\d+) \{$", re.M)
PARAMETER = re.compile(r"(\S+)(?: noundef| zeroext| signext)* (%\w+)")
# Numbers of attributes that the module itself doesn't reach.
FIRST_NUMBER = 9000
# How the module's user takes and gives back memory for what it hands over; page_take answers 0
# where there is none.
MEMORY = """
define internal noundef i64 @"rattle::export page_take"(i64 noundef %bytes) nounwind {
start:
  %tried = call { i64, i64 } @rattle_alloc(i64 %bytes, i64 16)
  %ok = extractvalue { i64, i64 } %tried, 0
  %block = extractvalue { i64, i64 } %tried, 1
  %none = icmp eq i64 %ok, 0
  %answer = select i1 %none, i64 0, i64 %block
  ret i64 %answer
}

define internal noundef i32 @"rattle::export page_give"(ptr noundef %block) nounwind {
start:
  call void @rattle_dealloc(ptr %block)
  ret i32 0
}
"""


class ProvedCall(NamedTuple):
    """A proved function that a module shows: what it answers, its name, and its parameters."""

    answer: str
    name: str
    parameters: str


OF_MEMORY = (
    ProvedCall("i64", "page_take", "i64 noundef %bytes"),
    ProvedCall("i32", "page_give", "ptr noundef %block"),
)
GUARD = """
declare noundef zeroext i1 @__rattle_enter() nounwind
declare void @__rattle_leave() nounwind
declare void @__rattle_trap() nounwind
"""
# How a guarded call begins.
ENTER = """\
  %was_inside = call i1 @__rattle_enter()
  br i1 %was_inside, label %spent, label %run
spent:
  call void @__rattle_trap()
  unreachable
run:
"""
HEAP = Path(__file__).resolve().parent / "heap.c"
# As Rattle calls clang for this target.
TARGET = (
    f"--target={WASM}",
    f"-mcpu={CPU}",
    "-mllvm",
    "-expand-div-rem-bits=64",
    "-mllvm",
    "-expand-fp-convert-bits=64",
    "-ffunction-sections",
    "-fdata-sections",
    "-mllvm",
    "-trap-unreachable",
    "-mllvm",
    "-no-x86-call-frame-opt",
    "-mllvm",
    "-disable-machine-licm",
    "-mllvm",
    "-disable-postra-machine-licm",
    "-mllvm",
    "-sink-common-insts=false",
    "--no-default-config",
    "-no-canonical-prefixes",
    "-fno-crash-diagnostics",
    "-Werror",
)
C = ("-O2", "-std=c17", "-ffreestanding", "-nostdinc", "-Wall", "-Wextra")
PROVED = "logic=proved "
# A clang that keeps the LLVM module which Rattle hands to it. Of the object for x86-64 nothing is
# used.
KEEPER = "#!/bin/sh\n/bin/cp module.bc {kept} && : > module.o\n"


def _taken(stream: BinaryIO, count: int) -> bytes:
    data = stream.read(min(count, MOST_MODULE))
    if len(data) < count:
        raise Trouble("it is cut off", "the module")
    return data


def _number(stream: BinaryIO) -> int:
    """A number in LEB128."""
    value = shift = 0
    while True:
        (byte,) = _taken(stream, 1)
        value |= (byte & 127) << shift
        shift += 7
        if byte < 128:
            return value


def _sections(module: bytes) -> Iterator[tuple[int, bytes]]:
    if not module.startswith(MAGIC):
        raise Trouble("it is no WebAssembly module", "the module")
    stream = io.BytesIO(module[len(MAGIC) :])
    while number := stream.read(1):
        yield number[0], _taken(stream, _number(stream))


def with_kit(module: bytes, kit: str) -> bytes:
    """A module that tells the kit which has made it, in a section that engines pass over."""
    content = bytes([len(KIT)]) + KIT + kit.encode("ascii")
    if len(content) > 127:
        raise Trouble("it has more letters than a kit's line", kit)
    return module + bytes([CUSTOM, len(content)]) + content


def kit_of(module: bytes) -> str:
    """The kit that has made a module; nothing where it doesn't tell."""
    begin = bytes([len(KIT)]) + KIT
    found = [
        data for number, data in _sections(module) if number == CUSTOM and data.startswith(begin)
    ]
    return found[-1][len(begin) :].decode("ascii", "replace") if found else ""


def exports_of(section: bytes) -> dict[str, int]:
    """The names that a section of exports has, in its order, each with its kind: 0 is a
    function."""
    stream = io.BytesIO(section)
    found = {}
    for _ in range(_number(stream)):
        name = _taken(stream, _number(stream)).decode("utf-8", "replace")
        (found[name],) = _taken(stream, 1)
        # Its place among others of its kind.
        _number(stream)
    return found


def check_module(module: bytes) -> str:
    """Holds a module to what the page relies on, and answers what was seen.

    It has no imports and no table, its memory has 32-bit addresses, and it exports the header's
    calls.
    """
    if len(module) > MOST_MODULE:
        raise Trouble(f"it has more than {MOST_MODULE:,} bytes", "the module")
    found = dict(_sections(module))
    for number, what in (
        (IMPORTS, "imports"),
        (TABLES, "a table"),
        (ELEMENTS, "elements of a table"),
    ):
        if number in found:
            raise Trouble(f"it has {what}, which it must not have", "the module")
    if not found.get(MEMORIES, b"")[1:2] or found[MEMORIES][1] & IS_64:
        raise Trouble("its memory is not one of 32-bit addresses", "the module")
    exports = exports_of(found.get(EXPORTS, b"\0"))
    calls = set(calls_of(HEADER.read_text("ascii")))
    shown = {name for name, kind in exports.items() if kind == FUNCTION} - OWN
    lacking = sorted((calls - shown) | (OWN - exports.keys()))
    more = sorted(exports.keys() - calls - OWN)
    if lacking:
        raise Trouble(f"it lacks {', '.join(lacking)}", "the module")
    if more:
        raise Trouble(f"it exports what is not in {HEADER.name}: {', '.join(more)}", "the module")
    return f"{len(module):,} bytes, {len(calls)} calls, no imports, no table"


def _refuse_unknown(text: str) -> None:
    """Ends the work where the module has something that is not known to mean the same on both
    targets."""
    unknown = sorted(set(DECLARED.findall(text)) - INTRINSICS - MEMORY_CALLS)
    if unknown:
        raise Trouble(
            f"it calls {', '.join(unknown)}, and that isn't known to mean the same on wasm64", NAME
        )
    for what, pattern in FOREIGN.items():
        found = pattern.search(text)
        if found is not None:
            line = text.count("\n", 0, found.start()) + 1
            raise Trouble(
                f"it has {what}, and that isn't known to mean the same on wasm64", NAME, line
            )


def _with_target(text: str) -> str:
    for word, (old, new) in (("datalayout", LAYOUTS), ("triple", TRIPLES)):
        line = f'target {word} = "{old}"'
        if text.count(line) != 1:
            raise Trouble(f"its {word} is not the one that is known: {line}", NAME)
        text = text.replace(line, f'target {word} = "{new}"')
    text = NATIVE.sub(f'{QUIET} "target-cpu"="{CPU}"', text)
    if "x86" in text:
        number = text.count("\n", 0, text.index("x86")) + 1
        raise Trouble("x86 is still named", NAME, number)
    return text


class ModuleForm(NamedTuple):
    """How a module shows its calls."""

    # After a trap no call runs over memory that is half written, as Rattle's own lowering for
    # wasm64 has it.
    is_guarded: bool
    # Addresses and lengths come and go in 32 bits, which are plain numbers in JavaScript. Else they
    # have 64.
    is_narrow: bool


# The page's module, and the one of which C is made, whose calls guard it themselves.
OF_PAGE = ModuleForm(True, True)
OF_C = ModuleForm(False, False)
WIDE = ("ptr", "i64")


class Parameter(NamedTuple):
    """A parameter of a call: its type, its name, and the whole of it as it stands."""

    kind: str
    name: str
    whole: str


class Shown:
    """A call that a module shows: a function round the proved one."""

    def __init__(self, call: ProvedCall, form: ModuleForm) -> None:
        listed = call.parameters.split(", ")
        read = [PARAMETER.fullmatch(parameter) for parameter in listed if parameter]
        if None in read:
            told = f"the parameters of {call.name} are not read: {call.parameters}"
            raise Trouble(told, NAME)
        self._parameters = [
            Parameter(word[1], word[2], word[0]) for word in read if word is not None
        ]
        self._result = call.answer
        self._name = call.name
        self._form = form

    def _is_widened(self, kind: str) -> bool:
        return self._form.is_narrow and kind in WIDE

    def _widening(self) -> Iterator[str]:
        for kind, name, _ in self._parameters:
            if self._is_widened(kind):
                yield f"  {name}.wide = zext i32 {name} to i64\n"
                if kind == "ptr":
                    yield f"  {name}.place = inttoptr i64 {name}.wide to ptr\n"

    def _arguments(self) -> Iterator[str]:
        for kind, name, _ in self._parameters:
            yield f"{kind} {name}" + {"ptr": ".place", "i64": ".wide"}.get(
                kind, ""
            ) * self._is_widened(kind)

    def _answer(self) -> str:
        if self._is_widened(self._result):
            return f"  %low = trunc {self._result} %answer to i32\n  ret i32 %low\n"
        return f"  ret {self._result} %answer\n"

    def text(self, number: int, is_guarded: bool) -> str:
        """The function, with the attributes of this number."""
        result = "i32" if self._is_widened(self._result) else self._result
        given = ", ".join(
            f"i32 noundef {name}" if self._is_widened(kind) else whole
            for kind, name, whole in self._parameters
        )
        call = (
            f'  %answer = call {self._result} @"rattle::export'
            f' {self._name}"({", ".join(self._arguments())})\n'
        )
        enter = ENTER if is_guarded else ""
        leave = "  call void @__rattle_leave()\n" if is_guarded else ""
        return (
            f"\ndefine noundef {result} @{self._name}({given}) #{number} {{\nstart:\n{enter}"
            f"{''.join(self._widening())}{call}{leave}{self._answer()}}}\n"
            f'attributes #{number} = {{ {ATTRIBUTES} "wasm-export-name"="{self._name}" }}\n'
        )


def retargeted(text: str, form: ModuleForm) -> str:
    """The module for wasm64, which shows its calls in a form. It also shows `page_take` and
    `page_give`."""
    _refuse_unknown(text)
    text = _with_target(text)
    exports = [ProvedCall(*found[:3]) for found in EXPORT.findall(text)]
    if not exports:
        raise Trouble("it exports nothing", NAME)
    kept = "noinline " if form.is_guarded else ""
    text = EXPORT.sub(rf'define internal noundef \1 @"rattle::export \2"(\3) {kept}#\4 {{', text)
    wrappers = (
        Shown(call, form).text(number, form.is_guarded and call not in OF_MEMORY)
        for number, call in enumerate((*exports, *OF_MEMORY), FIRST_NUMBER)
    )
    return text + MEMORY + (GUARD if form.is_guarded else "") + "".join(wrappers)


class ModuleMaker:
    """Makes modules in a folder, with the toolchain of a kit; a phase of that has what hears its
    programs."""

    def __init__(self, folder: Path, phase: Callable[[str], Hearer]) -> None:
        self._folder = folder
        self._phase = phase
        self._kit = kit_folder()
        self._tools = self._kit / "toolchain" / "bin"

    def _run(self, phase: str, words: Sequence[str | Path], folder: Optional[Path] = None) -> str:
        done = ended_well(words, folder, self._phase(phase))
        return (done.output + done.errors).decode("utf-8", "replace")

    def _rattle(self, phase: str, *words: str | Path) -> str:
        return self._run(phase, [self._kit / "bin" / "rattle", *words], CRATE)

    def prove(self, gated: Optional[Path]) -> list[str | Path]:
        """Proves the crate; the words by which the compiler finds what is kept of that.

        With a folder the crates below are those that `rt ci` left, and the folder keeps the proof.
        """
        if gated is None:
            self._run("proving", ["rt", "check"], CRATE)
        words = proving_words(self._kit, gated or KEPT)
        # The module is made of what is proved for x86-64. The crate is to be proved for this target
        # too.
        said = self._rattle(f"proving for {WASM}", "check", *words, "--target", WASM)
        if not any(
            line.startswith(PROVED) and f"target={WASM}" in line for line in said.splitlines()
        ):
            raise Trouble(f"the compiler doesn't say that it is proved for {WASM}", CRATE.name)
        return words

    def _keeping_toolchain(self, folder: Path, kept: Path) -> Path:
        """A toolchain that is the kit's, except that its clang keeps the LLVM module in a file."""
        (folder / "bin").mkdir(parents=True)
        (folder / "lib").symlink_to(self._kit / "toolchain" / "lib")
        for name in ("ld.lld", "llvm-ar"):
            (folder / "bin" / name).symlink_to(self._tools / name)
        clang = folder / "bin" / "clang"
        clang.write_text(KEEPER.format(kept=shlex.quote(str(kept))), "utf-8")
        clang.chmod(0o755)
        return folder

    def _llvm_text(self, building: Sequence[str | Path], folder: Path) -> str:
        """The text of the LLVM module that Rattle makes of the proved crate for x86-64."""
        kept = folder / "module.bc"
        text = folder / "native.ll"
        toolchain = self._keeping_toolchain(folder / "toolchain", kept)
        words = [
            *building,
            "--toolchain",
            toolchain,
            "--backend",
            "llvm",
            "-o",
            folder / "native.a",
        ]
        self._rattle("lowering", "build", *words)
        as_text = ["-S", "-emit-llvm", "-O0", "-Xclang", "-disable-llvm-passes", "-x", "ir"]
        self._run("writing LLVM's text", [self._tools / "clang", *as_text, kept, "-o", text])
        return text.read_text("utf-8")

    def _archive(self, text: str, folder: Path) -> Path:
        source = folder / "wasm.ll"
        archive = folder / "wasm.a"
        objects = [folder / "wasm.o", folder / "heap.o"]
        source.write_text(text, "utf-8")
        clang: list[Word] = [self._tools / "clang", *TARGET]
        self._run(
            f"compiling for {WASM}", [*clang, "-O3", "-c", "-x", "ir", source, "-o", objects[0]]
        )
        self._run("compiling the heap", [*clang, *C, "-c", HEAP, "-o", objects[1]])
        self._run("archiving", [self._tools / "llvm-ar", "rcsD", "--format=gnu", archive, *objects])
        return archive

    def _linked(self, archive: Path, memory: Optional[int]) -> Path:
        module = archive.with_name("linked.wasm")
        words: list[Word] = ["--target", WASM, "--toolchain", self._kit / "toolchain"]
        words += [] if memory is None else ["--memory", str(memory)]
        self._run("linking", [self._kit / "bin" / "rattle-link", *words, "-o", module, archive])
        return module

    def _lowered(self, module: Path, *options: str) -> bytes:
        """The linked module with memory of 32 bits, which tells the kit."""
        made = module.with_name("lowered.wasm")
        self._run("lowering memory", [WASM_OPT, *LOWERING, *options, module, "-o", made])
        lowered = with_kit(made.read_bytes(), kit_line())
        check_module(lowered)
        return lowered

    def modules(
        self, building: Sequence[str | Path], memories: Sequence[Optional[int]]
    ) -> list[bytes]:
        """Modules of the proved crate, held to what the page relies on, one for each size of
        memory.

        A size is a number of bytes, a multiple of 65,536; None is a memory that grows.
        """
        with tempfile.TemporaryDirectory(dir=self._folder) as name:
            text = retargeted(self._llvm_text(building, Path(name)), OF_PAGE)
            archive = self._archive(text, Path(name))
            return [self._lowered(self._linked(archive, memory), SMALLER) for memory in memories]

    def module_for_c(self, building: Sequence[str | Path]) -> bytes:
        """The module of which C is made: each of its places in memory is the low half of an
        address, as it stands."""
        with tempfile.TemporaryDirectory(dir=self._folder) as name:
            text = retargeted(self._llvm_text(building, Path(name)), OF_C)
            return self._lowered(self._linked(self._archive(text, Path(name)), None))


class ProvedCrate(NamedTuple):
    """The crate once it is proved: what makes modules of it, and the words by which the compiler
    finds what is kept of the proof."""

    maker: ModuleMaker
    building: Sequence[Word]


@contextmanager
def _proved(words: argparse.Namespace, progress: Progress) -> Iterator[ProvedCrate]:
    """Proves the crate.

    By --gated of the words the crates below are those that `rt ci` left; the folder of --proof
    keeps the crate's own.
    """
    with tempfile.TemporaryDirectory(prefix="vga-page-") as name:
        maker = ModuleMaker(Path(name), phases(progress))
        proof = (words.proof or Path(name) / "proof").absolute() if words.gated else None
        yield ProvedCrate(maker, maker.prove(proof))
    progress.clear()


def made_for_c(words: argparse.Namespace, progress: Progress) -> bytes:
    """Proves the crate, and makes the module of which C is made."""
    with _proved(words, progress) as proved:
        return proved.maker.module_for_c(proved.building)


def made_module(words: argparse.Namespace, progress: Progress) -> bytes:
    """Proves the crate, and makes its module, with memory of the size that the words name."""
    return made_modules(words, progress, [words.memory])[0][0]


def made_modules(
    words: argparse.Namespace, progress: Progress, memories: Sequence[Optional[int]], times: int = 1
) -> list[list[bytes]]:
    """Proves the crate once, and makes its modules so many times, one for each size of memory."""
    with _proved(words, progress) as proved:
        return [proved.maker.modules(proved.building, memories) for _ in range(times)]
