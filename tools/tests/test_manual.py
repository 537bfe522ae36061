"""The manual page and the completions in `share/` tell what the program's helps tell, and shells
complete by them."""

import re
import shutil
import unittest
from pathlib import Path

from zaklimot.commands.core.version import version

from .completing import IN_BASH, IN_FISH, IN_ZSH, WITH_FISH, WITH_ZSH, Completing
from .test_edges import HELP
from .tools import TOP, ended


PAGE, BASH, ZSH, FISH = (
    TOP / "share" / place
    for place in (
        "man/man1/vga.1",
        "bash-completion/completions/vga",
        "zsh/site-functions/_vga",
        "fish/vendor_completions.d/vga.fish",
    )
)
# The helps that the program prints, by the names of its commands; and its own, with what each
# command does.
HELPS = {path.stem: path.read_text("utf-8") for path in HELP.glob("*.txt")}
WHOLE = HELPS.pop("vga")
COMMANDS = dict(re.findall(r"^  (\w+) +(\S.*)$", WHOLE.partition("\n\nOptions:")[0], re.M))
BARS = ["bars.bin", "bars.vga"]
FONT = "zaklimot.fnt"
FONTS = ["fonts", "zaklimot.fnt"]
FILES = [*BARS, "fonts", "one two.vga", FONT]
# An option as a help lists it: its names, what its value is, if it has one, and what it does.
Option = tuple[tuple[str, ...], str, str]
# How zsh and fish offer a value, by its name in the help.
OFFERS = {
    "": ("", ""),
    "N": (":N: ", " -x"),
    "FILE": (':FILE:_files -g "*.fnt"', " -x -k -a '(__vga_files .fnt)'"),
}


def options_of(text: str) -> set[Option]:
    """The options that a help lists."""
    found = re.findall(r"^ {2,6}(-\S+(?:, -\S+)*)(?: <(\w+)>)? {2,}(\S.*)$", text, re.M)
    return {(tuple(names.split(", ")), value, told) for names, value, told in found}


def names_of(options: set[Option]) -> list[str]:
    """All names of options, sorted."""
    return sorted(name for names, _, _ in options for name in names)


OPTIONS = {option for text in HELPS.values() for option in options_of(text)}


class Files(unittest.TestCase):
    """Each command and option stands in each file with what the help tells of it, and no other
    option does."""

    def test_the_helps_are_read_whole(self) -> None:
        self.assertEqual(
            (set(COMMANDS), names_of(OPTIONS)), (set(HELPS), ["--fonts", "--help", "--until", "-h"])
        )

    def test_the_manual_page(self) -> None:
        text = PAGE.read_text("ascii")
        self.assertEqual(re.findall(r"(?:Zaklimot|vga) (\d+\.\d+)", text), [str(version())] * 2)
        page = re.sub(r"\\f[BIR]", "", text).replace(r"\-", "-")
        usages = [re.findall("^Usage: (.*)$", HELPS[name], re.M)[0] for name in COMMANDS]
        synopsis = page.partition(".SH SYNOPSIS\n")[2].partition("\n.SH")[0].split("\n.br\n")
        self.assertEqual(synopsis, [re.sub(r"<(\w+)>", r"\1", usage) for usage in usages])
        (status,) = re.findall(r"^The status is .*$", WHOLE, re.M)
        self.assertIn(f".SH EXIT STATUS\n{status}\n", page)
        for name, told in COMMANDS.items():
            self.assertRegex(page, rf"\.TP\n{name} .*\n{re.escape(told.replace('`', ''))}(?!\w)")
        for names, value, told in OPTIONS:
            self.assertIn(f".TP\n{', '.join(names)} {value}".rstrip() + f"\n{told}", page)
        self.assertEqual(sorted(set(re.findall(r"(?<!\S)--?[a-z]+", page))), names_of(OPTIONS))

    @unittest.skipUnless(shutil.which("groff"), "groff isn't installed")
    def test_groff_has_nothing_to_warn_of(self) -> None:
        self.assertEqual(ended("groff", "-man", "-Tascii", "-ww", PAGE)[::2], (0, ""))

    def test_zsh_and_fish(self) -> None:
        zsh = ZSH.read_text("ascii")
        fish = FISH.read_text("ascii")
        for name, told in COMMANDS.items():
            self.assertIn(f"\n        '{name}:{told}'\n", zsh)
            self.assertIn(f"\n        {name} '{told}'", fish)
        for names, value, told in OPTIONS:
            in_zsh, in_fish = OFFERS[value]
            for name in names:
                self.assertIn(f"{name}{'=' * bool(value)}[{told}]{in_zsh}'", zsh)
                self.assertRegex(fish, f" {name.replace('--', '-l ').replace('-h', '-s h')}\\b")
            self.assertIn(f" {names[-1].replace('--', '-l ')}{in_fish} -d '{told}'\n", fish)
        self.assertEqual(sorted(set(re.findall(r"[)'](--?[a-z]+)", zsh))), names_of(OPTIONS))
        listed = re.findall(r" -[sl] (?=.* -d )", fish.partition("complete -c")[2])
        self.assertEqual(len(listed), len(names_of(OPTIONS)))


class Shells(Completing):
    def setUp(self) -> None:
        super().setUp()
        for name in (*BARS, "one two.vga", FONT, "fonts/other.fnt"):
            self.write(f"files/{name}", "")

    def assert_offered(self, words: tuple[str, ...], completion: Path, **more: list[str]) -> None:
        """What a shell that is started by these words offers, in any order; more than one offer for
        some."""
        offered = {
            "vga ": [*COMMANDS],
            "vga help ": [*COMMANDS],
            "vga play ": [],
            "vga g": ["go"],
            "vga asm ": FILES,
            "vga asm x b": BARS,
            "vga asm o": ["one two.vga"],
            "vga dis -- ": FILES,
            "vga dis -- -": [],
            "vga -": names_of(options_of(WHOLE)),
            **{f"vga {name} -": names_of(options_of(HELPS[name])) for name in HELPS},
            "vga run --until 5 b": BARS,
            "vga run --fonts ": FONTS,
            "vga go x --fonts ": FONTS,
            "vga run x --fonts b": BARS,
            "vga go --until ": [],
        }
        self.hold_offered(words, completion, {**offered, **more})

    def test_bash(self) -> None:
        self.assert_offered(IN_BASH, BASH)

    @WITH_ZSH
    def test_zsh(self) -> None:
        self.assert_offered(IN_ZSH, ZSH)

    @WITH_FISH
    def test_fish(self) -> None:
        # Files without the ending come behind those with it.
        self.assert_offered(
            IN_FISH, FISH, **{line: FILES for line in ("vga run --fonts ", "vga go x --fonts ")}
        )
