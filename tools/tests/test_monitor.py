"""qemu's monitor: one that doesn't listen, greet or answer, what its greeting tells, and which keys
its description names."""

from __future__ import annotations

import io
import json
import socket
import threading
import unittest
from typing import Any, Callable, Iterator, Optional
from unittest import mock

from zaklimot.commands.trace import monitor, recording
from zaklimot.commands.trace.asked import Deed
from zaklimot.commands.trace.monitor import Monitor, key_names, monitor_at
from zaklimot.commands.trace.recording import check_keys

from .tools import Folder, hold, refused


GREETING = b'{"QMP": {"version": {"qemu": {"major": 9, "micro": 3}, "package": ""}}}\n'
DONE = b'{"return": {}}\n'
# How qemu describes `send-key`, and the types that lead to the names of its keys.
SCHEMA: tuple[dict[str, Any], ...] = (
    {"name": "send-key", "arg-type": "1"},
    {"name": "1", "members": [{"name": "hold", "type": "int"}, {"name": "keys", "type": "2"}]},
    {"name": "2", "element-type": "3"},
    {"name": "3", "variants": [{"case": "number", "type": "4"}, {"case": "qcode", "type": "5"}]},
    {"name": "5", "members": [{"name": "data", "type": "6"}]},
    {"name": "6", "values": ["ret", "spc"]},
)


class Lines(io.StringIO):
    """The lines of a monitor, and apart from them what is written to it."""

    def __init__(self, *lines: object) -> None:
        super().__init__("".join(f"{json.dumps(line)}\n" for line in lines))
        self.asked: list[Any] = []

    def write(self, text: str) -> int:
        self.asked.append(json.loads(text))
        return len(text)


class Listening(Folder):
    """A monitor on a socket."""

    def serve(self, *answers: Optional[bytes]) -> list[bytes]:
        """Has a monitor write each of these, and read a line after it; None waits for the end. What
        it has read, once it has ended."""
        server = socket.socket(socket.AF_UNIX)
        server.bind(str(self.folder / "monitor"))
        server.listen()
        asked: list[bytes] = []

        def work() -> None:
            with server, server.accept()[0] as connection, connection.makefile("rwb") as lines:
                for answer in answers:
                    lines.write(answer or b"")
                    lines.flush()
                    asked.append(lines.readline())

        thread = threading.Thread(target=work, daemon=True)
        thread.start()
        self.addCleanup(thread.join, 60)
        return asked

    def told(self) -> str:
        """What is told of a monitor that can't be used."""
        with mock.patch.object(monitor, "ANSWERING", 0.2):
            return refused(lambda: monitor_at(self.folder / "monitor").__enter__())

    def test_one_that_does_not_listen(self) -> None:
        self.assertEqual(self.told(), "qemu: its monitor doesn't listen")
        self.write("monitor", "no socket")
        self.assertEqual(self.told(), "qemu: its monitor doesn't listen")

    def test_one_that_does_not_greet(self) -> None:
        self.serve(None)
        self.assertEqual(self.told(), "qemu: its monitor doesn't greet: timed out")

    def test_one_that_greets_in_another_way(self) -> None:
        self.serve(b"login:\n")
        self.assertRegex(self.told(), "^qemu: its monitor doesn't greet: Expecting value")

    def test_one_that_does_not_answer(self) -> None:
        self.serve(GREETING, None)
        told = "qemu: its monitor doesn't do qmp_capabilities: timed out"
        self.assertEqual(self.told(), told)

    def test_one_that_is_ready(self) -> None:
        asked = self.serve(GREETING, DONE)
        with monitor_at(self.folder / "monitor") as do:
            self.assertEqual(do.version, "qemu 9.0.3")
        self.wait_until(lambda: len(asked) == 2)
        self.assertEqual(
            [json.loads(line) for line in asked if line],
            [{"execute": "qmp_capabilities", "arguments": {}}],
        )


class Asked(unittest.TestCase):
    def test_events_before_an_answer_are_passed_over(self) -> None:
        lines = Lines({}, {"event": "STOP"}, {"event": "RESUME"}, {"return": {}}, {"return": {}})
        do = Monitor(lines)
        do("stop")
        do("screendump", filename="x")
        commands = [("stop", {}), ("screendump", {"filename": "x"})]
        self.assertEqual(
            lines.asked, [{"execute": name, "arguments": given} for name, given in commands]
        )
        # Both answers have come.
        told = refused(do, "cont")
        self.assertEqual(told, "qemu: its monitor doesn't do cont: it has ended")

    def test_a_command_that_is_refused(self) -> None:
        do = Monitor(Lines({}, {"error": {"class": "x", "desc": "there is none"}}))
        told = refused(do, "quit")
        self.assertEqual(told, "qemu: its monitor doesn't do quit: there is none")

    def test_versions(self) -> None:
        numbers = {"major": 7, "minor": 2, "micro": 18}
        hold(
            self,
            lambda version: Monitor(Lines({"QMP": {"version": version}})).version,
            (
                ({"qemu": numbers, "package": " (Debian 1:7.2) "}, "qemu 7.2.18 (Debian 1:7.2)"),
                ({"qemu": numbers, "package": ""}, "qemu 7.2.18"),
                ({"qemu": numbers}, "qemu 7.2.18"),
                ({}, ""),
            ),
        )
        self.assertEqual(Monitor(Lines()).version, "")


class Keys(unittest.TestCase):
    """The keys of a fake of qemu that answers so."""

    def names(self, *answers: object) -> list[str]:
        with mock.patch.object(monitor, "run", return_value="\n".join(map(json.dumps, answers))):
            return list(key_names())

    def test_the_names_in_its_description(self) -> None:
        schema = [*SCHEMA, {"name": "stop"}]
        self.assertEqual(
            self.names({"QMP": {}}, {"return": {}}, {"return": schema}), ["ret", "spc"]
        )

    def test_a_description_without_keys(self) -> None:
        self.assertEqual(self.names(), [])
        self.assertEqual(self.names({"QMP": {}}, {"return": {}}), [])
        self.assertEqual(self.names({"return": []}), [])
        for at in range(len(SCHEMA)):
            for changed in self.changed(at):
                self.assertEqual(self.names({"return": changed}), [], at)

    @staticmethod
    def changed(at: int) -> Iterator[list[dict[str, Any]]]:
        """The description without an entry, and with an entry that has its name alone."""
        yield [*SCHEMA[:at], *SCHEMA[at + 1 :]]
        yield [*SCHEMA[:at], {"name": SCHEMA[at]["name"]}, *SCHEMA[at + 1 :]]

    def check(self, names: tuple[str, ...], *keys: str) -> Callable[[], None]:
        """What looks at keys, where qemu has keys of these names."""

        def check() -> None:
            with mock.patch.object(recording, "key_names", return_value=names):
                check_keys([Deed(), Deed(None, keys), Deed(1.0)])

        return check

    def test_keys_that_are_there_or_not(self) -> None:
        known = ("ret", "ctrl", "c", "spc")
        self.check(known, "ret", "ctrl-c")()
        # What a machine has that describes none can't be told before it is pressed.
        self.check((), "rett")()
        for keys, told in (
            (("ret", "ctrl-rett"), "`rett` is no key of qemu's: `ret` is one"),
            (("ctr", "x"), "`ctr` is no key of qemu's: `ctrl` is one"),
            (("c", "power"), "`power` is no key of qemu's"),
        ):
            self.assertEqual(refused(self.check(known, *keys)), told)
        many = ("kp_1", "kp_2", "kp_3", "kp_4")
        told = refused(self.check(many, "kp_"))
        self.assertRegex(told, "^`kp_` is no key of qemu's: `kp_.` or `kp_.` is one$")

    def test_qemu_is_not_asked_where_no_key_is(self) -> None:
        with mock.patch.object(recording, "key_names") as asked:
            check_keys([Deed(), Deed(2.0)])
        asked.assert_not_called()
