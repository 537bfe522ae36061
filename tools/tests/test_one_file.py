"""The library as one C file, as the repository has it and its copies."""

import re
import unittest

from zaklimot.commands import TOP
from zaklimot.commands.core.version import HEADER, calls_of
from zaklimot_dev.library import one_file as portable
from zaklimot_dev.library.one_file import C_FILE, HAND


class Copies(unittest.TestCase):
    """Cargo packs what lies in a crate's folder: so the crate has copies of the library's files."""

    def test_they_are_the_files(self) -> None:
        copies = TOP / "bindings" / "rust" / "zaklimot-sys" / "portable"
        files = (C_FILE, HEADER, TOP / "fonts" / "zaklimot.fnt")
        self.assertEqual(
            sorted(path.name for path in copies.iterdir()), sorted(path.name for path in files)
        )
        for path in files:
            is_same = (copies / path.name).read_bytes() == path.read_bytes()
            self.assertTrue(is_same, f"cp {path.relative_to(TOP)} {copies.relative_to(TOP)}/")


class Kept(unittest.TestCase):
    """The file as the repository has it."""

    text = C_FILE.read_text("ascii")

    def test_it_has_the_parts_by_hand_and_each_call(self) -> None:
        for path in (portable.MEMORY, *portable.CALLS):
            self.assertTrue(path.read_text("ascii") in self.text, path.name)
        self.assertEqual(
            sorted(path.name for path in HAND.iterdir()),
            sorted(path.name for path in (portable.HEAD, portable.MEMORY, *portable.CALLS)),
        )
        for name in calls_of(HEADER.read_text("ascii")):
            self.assertTrue(f"static u32 module_{name}(module *self" in self.text, name)
            self.assertTrue(
                re.search(rf"^(?:zak_status|uint32_t) {name}\(|^SHOW\({name},", self.text, re.M),
                name,
            )

    def test_its_head_tells_what_made_it(self) -> None:
        head = self.text.partition("*/")[0]
        for word in (
            "SPDX-License-Identifier: MIT",
            "wasm-opt",
            "wasm2c",
            "Apache License",
            "No proof covers",
        ):
            self.assertIn(word, head)
