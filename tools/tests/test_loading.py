"""Which library the tools load, and that what they start may have another."""

from __future__ import annotations

import os
import shutil
import subprocess
import sys
from pathlib import Path

from zaklimot.commands.script.library import NAMED
from zaklimot.commands.script.portable import portable_library

from .tools import TOP, Folder, want_library

# Loads the library where a release, an installation and `vga-library make kit` have one at these
# places, and tells which, and what is named then.
LOADS = f"""import os, pathlib, sys
import zaklimot.commands
import zaklimot
from zaklimot.commands.core.trouble import Trouble
from zaklimot.commands.script import library
library.RELEASED, installed, library.MADE = map(pathlib.Path, sys.argv[1:])
finding = library._library
finding.CARRIED, finding.FILE, finding.USUAL_PREFIXES = installed.parent, installed.name, ()
sys.prefix = "/none"
try:
    library.use_library()
    print(zaklimot.library_path())
except Trouble as trouble:
    print(trouble)
print(os.environ.get("{NAMED}"))
"""


class Loading(Folder):
    def setUp(self) -> None:
        super().setUp()
        want_library()
        self.portable = portable_library()
        self.other = str(self.folder / "libzaklimot.so")
        shutil.copyfile(self.portable, self.other)

    def loaded(self, *places: str, **named: str) -> list[str]:
        """What a process tells that loads the library."""
        kept = {name: value for name, value in os.environ.items() if name != NAMED}
        words = [sys.executable, "-c", LOADS, *places]
        done = subprocess.run(
            words,
            cwd=TOP / "python",
            env={**kept, **named},
            capture_output=True,
            text=True,
            timeout=200,
        )
        self.assertEqual((done.returncode, done.stderr), (0, ""))
        return done.stdout.splitlines()

    def test_which_one(self) -> None:
        none = str(self.folder / "none")
        # What this system doesn't load, and what is no library of this project, is passed over.
        wrong = (self.write("wrong.so", b"no library"), shutil.which("true") or none)
        for bad in (none, *map(str, wrong)):
            self.assertEqual(self.loaded(bad, bad, bad), [self.portable, "None"])
            for place in range(3):
                places = [bad, bad, bad]
                places[place] = self.other
                self.assertEqual(self.loaded(*places), [self.other, "None"])
        self.assertEqual(self.loaded(self.portable, self.other, none), [self.portable, "None"])
        self.assertEqual(self.loaded(none, self.portable, self.other), [self.portable, "None"])
        named = self.loaded(self.portable, none, none, ZAKLIMOT_LIBRARY=self.other)
        self.assertEqual(named, [self.other, self.other])

    def test_what_can_not_be_loaded(self) -> None:
        for name in ("none", self.write("text", b"no library")):
            path = str(Path(self.folder, name))
            (told, named) = self.loaded(*[self.other] * 3, ZAKLIMOT_LIBRARY=path)
            self.assertEqual((told.startswith(f"{path}: "), named), (True, path))
            self.assertNotIn("pip install", told)
