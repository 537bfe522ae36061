"""Runs of scripts by a fake of the program, for the modules that test them."""

from __future__ import annotations

import os
from functools import partial
from pathlib import Path

from .tools import BLACK, RED, Folder, ppm, run_tool


run = partial(run_tool, "zaklimot")
# A program that understands texts of a few steps: `asm` copies, `dis` prints in upper case, `go`
# answers by the name.
FAKE = """import sys
words = sys.argv[1:]
data = open(words[1], "rb").read()
steps = [line.split(b";")[0].split() for line in data.split(b"\\n")]
numbered = [(at, step) for at, step in enumerate(steps, 1) if step]
if words[0] == "asm":
    open(words[2], "wb").write(data)
elif words[0] == "dis":
    for _, step in numbered:
        print(b" ".join(step).decode().upper())
elif words[0] in ("go", "run"):
    for at, step in numbered:
        if step[0] == b"move":
            sys.exit("vga: F7 BadLine(%d)" % at)
    out = sys.stdout.buffer
    stop = min(int(words[5]) if words[4:] else len(numbered), len(numbered))
    for number, (_, step) in enumerate(numbered[:stop], 1):
        answer = {{b"get": b"E6", b"frame": b"picture 37\\n" + {picture!r},
                  b"show": b"a\\nb" if b"regs" in step else b"misc 67", b"in": b"E1 NotDecoded",
                  b"int": b"ax=0003 bx=0000 cx=0000 dx=0000"}}.get(step[0], b"ok")
        out.write(b"%d %s\\n" % (number, answer))
    if words[4:]:
        out.write(b"".join(b"%d look\\n" % (stop + at) for at in (1, 2, 3, 4)))
"""
TEXT = (
    "; A script.\n\nout 3c2 1\nget a0000 ; = E6\nin 3da\nframe ; = picture 9x1\nint ax=3 ; ="
    " ax=0003\nshow regs ; = 2 lines...\n"
)


class Fake(Folder):
    def setUp(self) -> None:
        super().setUp()
        self.vga = Path(self.program("vga", FAKE.format(picture=ppm(9, 1, RED * 4 + BLACK * 5))))
        self.path = self.write("s.vga", TEXT)

    def begin_program(self, text: str) -> None:
        """Has the program do this first."""
        self.vga.write_text(self.vga.read_text().replace("import sys\n", f"import sys\n{text}", 1))

    def run_tool(self, *words: str | bytes, given: bytes = b"") -> tuple[int, str, str]:
        """Exit status, output and standard error of the tool in the folder."""
        status, output, said = run(*words, given=given, prepare=lambda: os.chdir(self.folder))
        return status, output.decode(), said

    def run_script(
        self, *words: str | bytes, path: str | bytes = "", given: bytes = b""
    ) -> tuple[int, str, str]:
        """The same of a run of the script above or of another one."""
        return self.run_tool("run", path or self.path, "--vga", str(self.vga), *words, given=given)

    def run_text(self, text: str | bytes, *words: str) -> tuple[int, str, str]:
        """The same of the script `t.vga` with this text."""
        self.write("t.vga", text)
        return self.run_script(*words, path="t.vga")
