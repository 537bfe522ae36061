"""qemu's monitor, by which its keys are pressed, and its screens are taken."""

import json
import socket
import time
from contextlib import contextmanager
from pathlib import Path
from typing import Any, Iterator, Sequence, TextIO

from zaklimot.commands.core.processes import run
from zaklimot.commands.core.trouble import Trouble

# Seconds within which it answers, and between two looks whether it listens.
ANSWERING = 10
PAUSE = 0.02
QEMU = "qemu-system-x86_64"
# The words of a machine that is asked and not run, and what it is asked.
ASKED = ("-machine", "none", "-nodefaults", "-display", "none", "-qmp", "stdio")
ASKING = b'{"execute":"qmp_capabilities"}{"execute":"query-qmp-schema"}{"execute":"quit"}'
SECONDS = 60


class Monitor:
    """Does commands of qemu's monitor with their arguments, and waits for the answers.

    `version` is what qemu says of itself, empty where it says nothing.
    """

    def __init__(self, lines: TextIO) -> None:
        self._lines = lines
        self.version = _version(json.loads(lines.readline() or "{}"))

    def __call__(self, name: str, **arguments: object) -> None:
        """Does a command; a Trouble where it is refused, or not answered."""
        try:
            self._lines.write(json.dumps({"execute": name, "arguments": arguments}) + "\n")
            self._lines.flush()
            # Events before the answer are passed over.
            answers = (
                answer
                for answer in map(json.loads, self._lines)
                if answer.keys() & {"return", "error"}
            )
            refused = next(answers, {"error": {"desc": "it has ended"}}).get("error")
            if refused is not None:
                raise ValueError(refused["desc"])
        except (OSError, ValueError) as error:
            raise Trouble(f"its monitor doesn't do {name}: {error}", "qemu") from error


def _version(greeting: Any) -> str:
    """The version of a greeting, as `qemu 7.2.18 (Debian 1:7.2+dfsg-7)`."""
    told = greeting.get("QMP", {}).get("version", {})
    numbers = ".".join(
        str(told.get("qemu", {}).get(part, 0)) for part in ("major", "minor", "micro")
    )
    package = str(told.get("package", "")).strip(" ()")
    return f"qemu {numbers}{f' ({package})' if package else ''}" if told else ""


@contextmanager
def monitor_at(path: Path) -> Iterator[Monitor]:
    """qemu's monitor, on a socket; a Trouble where it doesn't listen, or refuses a command."""
    with socket.socket(socket.AF_UNIX) as connection:
        until = time.monotonic() + ANSWERING
        while connection.connect_ex(str(path)):
            if time.monotonic() > until:
                raise Trouble("its monitor doesn't listen", "qemu")
            time.sleep(PAUSE)
        connection.settimeout(ANSWERING)
        with connection.makefile("rw") as lines:
            try:
                do = Monitor(lines)
            except (OSError, ValueError) as error:
                raise Trouble(f"its monitor doesn't greet: {error}", "qemu") from error
            do("qmp_capabilities")
            yield do


def key_names() -> Sequence[str]:
    """The names of all keys that this qemu has, by its own description of its commands; none where
    it gives no such description."""
    answered = run([QEMU, *ASKED], given=ASKING, seconds=SECONDS)
    described: dict[str, Any] = {}
    for line in answered.splitlines():
        told = json.loads(line).get("return")
        for entry in told if isinstance(told, list) else ():
            described[entry["name"]] = entry
    return _keys_in(described)


def _keys_in(described: dict[str, Any]) -> Sequence[str]:
    """The names of the keys in qemu's description: those that `send-key` takes."""
    try:
        given = described[described["send-key"]["arg-type"]]
        keys = _member(given, "keys")["type"]
        one = described[described[keys]["element-type"]]
        named = next(each for each in one["variants"] if each["case"] == "qcode")["type"]
        names: list[str] = described[_member(described[named], "data")["type"]]["values"]
    except (KeyError, StopIteration):
        return ()
    return names


def _member(entry: dict[str, Any], name: str) -> dict[str, Any]:
    return next(one for one in entry["members"] if one["name"] == name)
