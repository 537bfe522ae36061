"""How a tool begins: what its first lines are, and Ctrl-C before Python has begun."""

from __future__ import annotations

import os
import re
import shutil
import signal
import subprocess
import sys
import time
import unittest
from pathlib import Path
from unittest import mock

from zaklimot.commands import starting

from .tools import MAIN, MODULES, NAMES, TOOLS, TOP, Folder, ended, path_of

# Seconds after which Ctrl-C comes: from before the shell has begun until after Python has.
MOMENTS = [number / 50 for number in range(20)]
BLOCKING = ("env", "--block-signal=INT", "true")
# A tool that waits for its input.
WAITING = (TOP / "zaklimot", "pictures", "-", "-")


def _blocks() -> bool:
    """Whether this system's env can make a signal wait."""
    return shutil.which("env") is not None and ended(*BLOCKING)[0] == 0


class Starting(Folder):
    def interrupted(self, seconds: float) -> tuple[int, bytes, bytes]:
        """How a tool ends, and what it says, if Ctrl-C comes so long after its start."""
        pipe = subprocess.PIPE
        with subprocess.Popen(WAITING, stdin=pipe, stdout=pipe, stderr=pipe) as process:
            with self.assertRaises(subprocess.TimeoutExpired):
                process.wait(seconds or 1e-9)
            process.send_signal(signal.SIGINT)
            output, said = process.communicate(timeout=60)
        return process.returncode, output, said

    @unittest.skipUnless(_blocks(), "env has no --block-signal here")
    def test_ctrl_c_says_nothing_at_any_moment(self) -> None:
        for moment in MOMENTS:
            with self.subTest(moment):
                status, output, said = self.interrupted(moment)
                self.assertIn(status, (-signal.SIGINT, 130))
                self.assertEqual((output, said), (b"", b""))

    def test_ctrl_c_while_env_is_asked(self) -> None:
        """No shell waits for env, as bash does for a command that ends well."""
        pipe = subprocess.PIPE
        for shell in filter(shutil.which, ("sh", "bash")):
            begun = self.folder / shell
            slow = f"#!/bin/sh\ntrap '' INT\n>'{begun}'\nsleep 0.5\n"
            self.program("bin/env", slow)
            given = {**os.environ, "PATH": f"{self.folder / 'bin'}:{os.environ['PATH']}"}
            words: list[str | Path] = [shell, *WAITING]
            with subprocess.Popen(
                words, stdin=pipe, stdout=pipe, stderr=pipe, env=given, start_new_session=True
            ) as process:
                while not begun.exists():
                    self.assertIsNone(process.poll())
                    time.sleep(0.01)
                os.killpg(process.pid, signal.SIGINT)
                output, said = process.communicate(timeout=60)
            self.assertEqual((process.returncode, output, said), (-signal.SIGINT, b"", b""), shell)

    def test_ctrl_c_is_heeded_once_a_tool_works(self) -> None:
        """It waits for Python, and no longer."""
        shown = "import signal; print(signal.pthread_sigmask(signal.SIG_BLOCK, []))"
        module = self.write("shown.py", f"def main() -> int:\n    {shown}\n    return 0\n")
        tool = self.write("tool", (TOOLS / "vga-page").read_text("ascii"))
        text = re.sub(r'start\("[\w.]+"\)', 'start("shown")', Path(tool).read_text("ascii"))
        os.chmod(self.write("tool", text), 0o755)
        given = {**os.environ, "PYTHONPATH": f"{Path(module).parent}:{MODULES}"}
        self.assertEqual(ended(tool, env=given), (0, "set()\n", ""))

    def test_an_env_that_lets_no_signal_wait(self) -> None:
        old = shutil.which("env")
        self.program("bin/env", f'#!/bin/sh\ncase "$1" in -*) exit 125;; esac\nexec {old} "$@"\n')
        given = {**os.environ, "PATH": f"{self.folder / 'bin'}:{os.environ['PATH']}"}
        status, output, said = ended(TOP / "zaklimot", "steps", "kinds", env=given)
        self.assertEqual((status, said), (0, ""))
        self.assertIn("write-mode-0-planar ", output)

    def test_words_pass_as_they_are(self) -> None:
        status, _, said = ended(TOP / "zaklimot", "pictures", "a  $b \"c'", "-")
        self.assertEqual((status, said), (2, "zaklimot: a  $b \"c': No such file or directory\n"))

    def test_the_command_of_pip_is_that_of_the_clone(self) -> None:
        text = (TOP / "python" / "pyproject.toml").read_text("ascii")
        self.assertIn('\nzaklimot = "zaklimot.commands.starting:zaklimot"\n', text)
        with mock.patch.object(starting, "start", return_value=7) as start:
            self.assertEqual(starting.zaklimot(), 7)
        found = MAIN.search(path_of("zaklimot").read_text("ascii"))
        assert found is not None
        start.assert_called_once_with(found[1])

    def test_an_older_python_gets_one_sentence(self) -> None:
        self.write("sitecustomize.py", "import sys\nsys.version_info = (3, 8, 18)\n")
        with mock.patch.dict(os.environ, PYTHONPATH=str(self.folder)):
            done = ended(path_of("zaklimot"), "--help")
        told = "this needs Python 3.9 or later, not 3.8\n"
        self.assertEqual(done, (2, "", told))
        paths = os.pathsep.join((str(self.folder), str(TOP / "python")))
        with mock.patch.dict(os.environ, PYTHONPATH=paths):
            self.assertEqual(ended(sys.executable, "-m", "zaklimot", "--help"), (2, "", told))
            status, output, said = ended(sys.executable, "-c", "import zaklimot")
        self.assertEqual((status, output), (1, ""))
        self.assertTrue(said.endswith(f"\nImportError: {told}"), said)

    def test_all_begin_alike(self) -> None:
        begun = set()
        for name in (*NAMES, "vga"):
            text = path_of(name).read_text("ascii")
            lines = text.replace('"/../python"', '"/python"').splitlines()
            self.assertRegex(lines[2], "^# [A-Z]")
            self.assertTrue(lines[-1].startswith('raise SystemExit(start("'), name)
            begun.add("\n".join([*lines[:2], *lines[3:-1]]))
            self.assertTrue(os.access(path_of(name), os.X_OK), name)
        self.assertEqual(len(begun), 1)
