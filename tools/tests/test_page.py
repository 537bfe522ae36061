"""Pages: listings with their pictures, and the page that runs scripts, as it is made and as `run
--debug` opens it."""

from __future__ import annotations

import base64
import shutil
import sys
import unittest
from typing import Any
from unittest import mock
from urllib.parse import unquote, urljoin

from zaklimot_dev.page import editor, machine, page
from zaklimot_dev.page.making import LAYOUTS, OF_C, OF_PAGE, TRIPLES, check_module, retargeted
from zaklimot_dev.page.packing import packed
from zaklimot_dev.page_tests import command as tests_command
from zaklimot.commands.report import debugging
from zaklimot.commands.report.debugging import DOCS, PAGE, data_element, page_data

from .running import Fake
from .tools import Folder, call, hold_refused, hold_undone, main_of


needs_esbuild = unittest.skipIf(shutil.which(page.ESBUILD) is None, "esbuild is lacking")
needs_assembler = unittest.skipIf(shutil.which(machine.ASSEMBLER) is None, "nasm is lacking")
needs_editor = unittest.skipUnless(editor.is_there(), f"{editor.PACKAGE} is lacking")
TEXT = "; A script.\nint ax=3 ; = ax=0003\nframe ; <!-- </script> \u00e9\n"
OTHER_FONTS = bytes(9728)


class Pages(Folder):
    @needs_esbuild
    @needs_editor
    @needs_assembler
    def test_the_page_as_built(self) -> None:
        # It holds the order of modules, the place of each part, and what the page is given.
        built = tests_command.built_page()
        module = tests_command.module_in(built)
        self.assertRegex(
            tests_command.check_built(module, built), "its module is the one that the crate makes$"
        )
        self.assertRegex(check_module(module), r"^[\d,]+ bytes, \d+ calls, no imports, no table$")
        # No time is in what is packed.
        self.assertEqual(packed(b"module")[4:8], bytes(4))

    def test_the_words_that_the_page_has_of_the_tools(self) -> None:
        made = self.folder / "wordings.js"
        status, _, said = call(main_of("vga-page"), "wordings", made)
        self.assertEqual((status, said), (0, ""))
        self.assertEqual(made.read_bytes(), (page.SOURCES / "script" / "wordings.js").read_bytes())


NATIVE = f"""target datalayout = "{LAYOUTS[0]}"
target triple = "{TRIPLES[0]}"

define noundef i32 @zak_open(ptr noundef %card, ptr noundef %0, i64 noundef %length) #7 {{
start:
  %tried = call {{ i64, i64 }} @rattle_alloc(i64 %length, i64 8)
  ret i32 0
}}

define internal void @inside() #8 {{
  call void @llvm.trap()
  unreachable
}}

declare void @llvm.trap() #9
declare {{ i64, i64 }} @rattle_alloc(i64, i64)
attributes #7 = {{ nounwind "probe-stack"="inline-asm" "stack-probe-size"="4096" \
"target-cpu"="x86-64-v2" }}
"""


class Retargeting(unittest.TestCase):
    def test_the_page_takes_numbers_of_32_bits_and_is_guarded(self) -> None:
        text = retargeted(NATIVE, OF_PAGE)
        for part in (
            f'target triple = "{TRIPLES[1]}"',
            'attributes #7 = { nounwind "no-builtin-bcmp"',
            (
                'define internal noundef i32 @"rattle::export zak_open"(ptr noundef %card, ptr'
                " noundef %0, i64"
            ),
            (
                "define noundef i32 @zak_open(i32 noundef %card, i32 noundef %0, i32 noundef"
                " %length) #9000 {"
            ),
            "%was_inside = call i1 @__rattle_enter()",
            "call void @__rattle_leave()",
            "%card.wide = zext i32 %card to i64",
            "%0.place = inttoptr i64 %0.wide to ptr",
            (
                '%answer = call i32 @"rattle::export zak_open"(ptr %card.place, ptr %0.place, i64'
                " %length.wide)"
            ),
            "define noundef i32 @page_take(i32 noundef %bytes)",
            "%low = trunc i64 %answer to i32",
            '"wasm-export-name"="zak_open"',
            '"wasm-export-name"="page_take"',
        ):
            self.assertIn(part, text)
        self.assertNotIn("x86", text)
        self.assertNotIn('"wasm-export-name"="inside"', text)

    def test_the_c_file_takes_them_as_they_are_and_guards_itself(self) -> None:
        text = retargeted(NATIVE, OF_C)
        for part in (
            (
                "define noundef i32 @zak_open(ptr noundef %card, ptr noundef %0, i64 noundef"
                " %length) #9000 {"
            ),
            '%answer = call i32 @"rattle::export zak_open"(ptr %card, ptr %0, i64 %length)',
            "define noundef i64 @page_take(i64 noundef %bytes)",
        ):
            self.assertIn(part, text)
        self.assertNotIn("__rattle_", text)

    def test_what_is_not_known_is_refused(self) -> None:
        front = "^the module for x86-64"
        place = f":{NATIVE.count(chr(10)) + 1}"
        hold_refused(
            self,
            lambda line: retargeted(f"{NATIVE}{line}\n", OF_PAGE),
            (
                (line, f"{front}{'' if ' calls ' in told else place}: {told}")
                for line, told in (
                    ("declare i32 @puts(ptr)", "it calls puts, and"),
                    ("declare double @llvm.sqrt.f64(double)", "it calls llvm.sqrt.f64, and"),
                    ('declare void @"a b"()', "it calls a b, and"),
                    ('  call void asm sideeffect "nop", ""()', "it has inline assembly, and"),
                    ("  %v = load <4 x i32>, ptr %p", "it has a vector, and"),
                    ("  %p = load ptr addrspace(10), ptr %q", "it has an address space, and"),
                    ("  %r = call i32 %f(i32 1)", "it has a call by a pointer, and"),
                    ('attributes #8 = { "x86" }', "x86 is still named"),
                )
            ),
        )
        hold_refused(
            self,
            lambda old, new: retargeted(NATIVE.replace(old, new, 1), OF_PAGE),
            (
                (*row, f"{front}: ")
                for row in (
                    (LAYOUTS[0], "e"),
                    (TRIPLES[0], "aarch64"),
                    ("define noundef i32 @zak", "define i32 @zak"),
                    ("%card,", "%card zz,"),
                    ("%0, i64", "%0 zz, i64"),
                )
            ),
        )


@unittest.skipIf(sys.platform == "win32", "a script is a program on POSIX")
class Opened(Fake):
    def setUp(self) -> None:
        super().setUp()
        self.script = self.write("script.vga", TEXT)
        self.made = self.folder / "debug.html"

    def opened(self, page: str) -> dict[str, Any]:
        """What a page is told to open. Nothing else of it is otherwise than the page as built."""
        whole = PAGE.read_text("utf-8")
        data, built = page_data(page), page_data(whole)
        self.assertEqual({**data, "open": None, "pages": built["pages"]}, built)
        # No character of the script ends the element of the data.
        self.assertTrue(page == whole.replace(data_element(built), data_element(data)))
        self.assertEqual(page.count("</script"), whole.count("</script"))
        return data["open"]  # type: ignore[no-any-return]

    def test_what_is_opened(self) -> None:
        self.write("fonts", OTHER_FONTS)
        own = ("--fonts", "fonts")
        given = b"VGAS\x01\x0b\xff"
        coded = base64.b64encode
        rows: tuple[tuple[tuple[str, ...], bytes, dict[str, Any]], ...] = (
            (("-",), TEXT.encode(), {"text": TEXT, "fonts": None}),
            # Bytes of a text that are no text.
            (("-",), b"frame ; \xff\n\0\n", {"text": "frame ; \ufffd\n\0\n", "fonts": None}),
            (
                ("-", *own),
                given,
                {"bytes": coded(given).decode(), "fonts": coded(OTHER_FONTS).decode()},
            ),
        )
        for words, data, wanted in rows:
            status, page, said = self.debugged(*words, given=data)
            self.assertEqual((status, said), (0, ""))
            self.assertEqual(self.opened(page), {"name": "standard input", **wanted})

    def debugged(
        self, path: str, *words: str, given: bytes = b"", made: str = "-"
    ) -> tuple[int, str, str]:
        """Exit status, standard output and standard error of a run that writes a page, and nothing
        else."""
        return self.run_tool("page", path, made, *words, given=given)

    def test_how_it_is_opened_at_a_step(self) -> None:
        made = str(self.made)
        told = f"{made}: open it in a browser, for instance as {self.made.as_uri()}"
        self.assertEqual(self.debugged(self.script, made=made), (0, f"{told}\n", ""))
        self.assertEqual(
            self.debugged(self.script, "--until", "2", made=made), (0, f"{told}#step=2\n", "")
        )
        # The documentation is found from the page's own folder, wherever the command runs.
        (self.folder / "b" / "c").mkdir(parents=True)
        for name in ("debug.html", "b/c/debug.html"):
            self.assertEqual(self.debugged("script.vga", made=name)[0], 0)
            made_there = self.folder / name
            pages = unquote(page_data(made_there.read_text("utf-8"))["pages"])
            self.assertEqual((made_there.parent / pages).resolve(), DOCS)

    def test_links_of_names_that_mean_something_in_an_address(self) -> None:
        for name, quoted in (
            ("a b", "a%20b"),
            ("a#b", "a%23b"),
            ("100%", "100%25"),
            ("a%20b", "a%2520b"),
            ("a?b", "a%3Fb"),
        ):
            docs = self.folder / name / "docs"
            docs.mkdir(parents=True)
            with mock.patch.object(debugging, "DOCS", docs):
                self.assertEqual(self.debugged(self.script, made=str(self.made))[0], 0)
            pages = page_data(self.made.read_text("utf-8"))["pages"]
            self.assertEqual(pages, f"{quoted}/docs/")
            self.assertEqual(urljoin(self.made.as_uri(), pages), f"{docs.as_uri()}/")

    def test_a_page_that_is_not_there_or_another(self) -> None:
        built = self.folder / "built.html"
        with mock.patch.object(debugging, "PAGE", built):
            told = "the page is not built: `tools/vga-page make page/zaklimot.html` builds it"
            hold_undone(self, self.debugged(self.script, made=str(self.made)), told)
            built.write_text("<!DOCTYPE html>\n")
            told = "^zaklimot: built.html: it is not the page that runs scripts\n$"
            hold_undone(self, self.debugged(self.script, made=str(self.made)), told)
            built.write_bytes(PAGE.read_bytes())
            hold_undone(
                self,
                self.debugged(self.script, made=str(built)),
                f"^zaklimot: {built}: it is read as ",
            )
        self.assertFalse(self.made.exists())

    def test_the_page_of_a_script_with_a_mistake(self) -> None:
        path = self.write("bad.vga", "frame\nmove 1\n")
        status, _, said = self.debugged(path, made=str(self.made))
        self.assertEqual((status, said), (0, ""))
        self.assertEqual(self.opened(self.made.read_text("utf-8"))["text"], "frame\nmove 1\n")
