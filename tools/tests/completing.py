"""What shells offer where a line is completed."""

import os
import shutil
import unittest
from pathlib import Path
from typing import Mapping, Sequence

from .tools import Folder, ended, hold


# The words that start each shell, without a setting of the user.
IN_BASH = ("bash", "--norc", "--noprofile")
IN_ZSH = ("zsh", "-f")
IN_FISH = ("fish",)
WITH_ZSH = unittest.skipUnless(shutil.which("zsh"), "zsh isn't installed")
WITH_FISH = unittest.skipUnless(shutil.which("fish"), "fish isn't installed")


class Completing(Folder):
    """Lines that are completed in the folder `files`."""

    def hold_offered(
        self, words: Sequence[str], completion: Path, offered: Mapping[str, Sequence[str]]
    ) -> None:
        """Holds what a shell that is started by these words offers at the end of each line to what
        it should offer, in any order."""
        # Fish completes a command that there is.
        for command in {line.split()[0] for line in offered}:
            self.program(f"bin/{command}", "#!/bin/sh\n")
        path = f"{self.folder / 'bin'}:{os.environ['PATH']}"
        environment = {"HOME": str(self.folder), "PATH": path, "LANG": "C.UTF-8"}
        script = Path(__file__).with_name("manual") / f"completing.{words[0]}"
        status, output, said = ended(
            *words, script, completion, *offered, cwd=self.folder / "files", env=environment
        )
        self.assertEqual((status, said), (0, ""))
        lines = output.replace("\\", "").replace("/", "").splitlines()
        # zsh may offer a folder both as a folder and as a file.
        found = [sorted({*line.split("|")} - {""}) for line in lines]
        self.assertEqual(len(found), len(offered))
        hold(
            self,
            dict(zip(offered, found)).get,
            ((line, sorted(wanted)) for line, wanted in offered.items()),
        )
