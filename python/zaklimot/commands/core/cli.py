"""How each tool begins and ends: its words and help, its streams, its signals, its exit status, and
what it says at last."""

import argparse
import importlib
import io
import os
import signal
import sys
from contextlib import contextmanager
from typing import TYPE_CHECKING, Any, Callable, IO, Iterator, NamedTuple, Optional, Sequence

from .files import files, files_of_run
from .progress import Progress
from .signals import ending_signals
from .trouble import TROUBLE, Trouble
from .version import version

# What a shell says of programs that a closed pipe, the user, or the system has ended.
PIPE_CLOSED = 141
INTERRUPTED = 130
SIGNALLED = 128
NO_MEMORY = "there is not enough memory for this"
# How the exit status reads of a tool that tells differences, and of one that does a job or doesn't.
DIFFERS = "Exit status: 0 done, and nothing differs; 1 something differs; 2 the work can't be done."
DOES = "Exit status: 0 done; 2 the work can't be done."
JUDGES = "Exit status: 0 all is right; 1 something is wrong; 2 the work can't be done."


# What a command does with its words; its exit status, or None where all is well.
Job = Callable[[argparse.Namespace, Progress], Optional[int]]


class _Version(argparse.Action):
    """Prints the release's number, and ends the tool. No other command wants the header. `const`
    tells more, if there is more to tell."""

    def __call__(self, parser: argparse.ArgumentParser, *_: object) -> None:
        sys.stdout.write(f"{parser.prog} {version()}\n")
        if self.const is not None:
            sys.stdout.write(f"{self.const()}\n")
        parser.exit()


class _Parser(argparse.ArgumentParser):
    """A parser that loses no trouble with what it prints, as a disk that is full; and that takes a
    word which may be lacking after an option, too."""

    def _match_arguments_partial(
        self, actions: Sequence[argparse.Action], arg_strings_pattern: str
    ) -> list[int]:
        # Before Python 3.13 such a word counts as lacking where an option comes before it.
        counts = super()._match_arguments_partial(actions, arg_strings_pattern)
        if arg_strings_pattern[sum(counts) :].startswith("O"):
            while counts and counts[-1] == 0:
                counts.pop()
        return counts

    def _print_message(self, message: str, file: Optional[IO[str]] = None) -> None:
        if message and (file or sys.stderr) is sys.stderr:
            say(message)
        elif message and file is not None:
            file.write(message)


def say(text: str) -> None:
    """Writes text on standard error. Where that takes nothing, the exit status alone tells."""
    try:
        sys.stderr.write(text)
        sys.stderr.flush()
    except OSError:
        # Python would try again at its end, and change the status.
        os.dup2(os.open(os.devnull, os.O_WRONLY), sys.stderr.fileno())


def tool_parser(
    name: str,
    does: str,
    example: str,
    page: str,
    statuses: str = DOES,
    more: Optional[Callable[[], str]] = None,
) -> argparse.ArgumentParser:
    """The parser of a tool, whose help has an example of its use and names the page that tells
    more. `more` tells what stands below its version."""
    made = _Parser(
        prog=name,
        description=does,
        formatter_class=argparse.RawDescriptionHelpFormatter,
        epilog=f"Example:\n  {example}\n\n{statuses}\n{page} tells more.",
    )
    told = "prints the release's number" + ("" if more is None else ", and what runs scripts")
    made.add_argument("--version", action=_Version, nargs=0, const=more, help=told)
    return made


if TYPE_CHECKING:
    # The commands of a tool, to which `command` adds one.
    Commands = argparse._SubParsersAction[argparse.ArgumentParser]
else:
    Commands = argparse._SubParsersAction


class Rule(NamedTuple):
    """What an option asks of the words beside it: where it is given and the words break the rule,
    the reason ends the work. A reason may have words in it, by their names in braces."""

    name: str
    is_broken: Callable[[argparse.Namespace], object]
    reason: str

    def check(self, words: argparse.Namespace) -> None:
        """Ends the work where the rule is broken."""
        if getattr(words, self.name) not in (None, False) and self.is_broken(words):
            raise Trouble(self.reason.format_map(vars(words)))


def rule(
    parser: argparse.ArgumentParser,
    name: str,
    is_broken: Callable[[argparse.Namespace], object],
    reason: str,
) -> None:
    """Adds a rule of the option or the word that has this name among the parsed words."""
    rules: list[Rule] = parser.get_default("rules") or []
    parser.set_defaults(rules=[*rules, Rule(name, is_broken, reason)])


def add(parser: argparse._ActionsContainer, spelt: str, told: str, **given: Any) -> None:
    """Adds a word as a usage spells it: `FILE`, `--flag` or `--option VALUE`. `given` goes to
    argparse."""
    name, _, value = spelt.partition(" ")
    if not name.startswith("-"):
        given = {"metavar": name, **given}
    elif value:
        given = {"metavar": value, **given}
    elif "choices" not in given:
        given = {"action": "store_true", **given}
    parser.add_argument(name if name.startswith("-") else name.lower(), help=told, **given)


class later:
    """A job that is a function of a module, which is imported once the job begins: the help of a
    tool needs none of them."""

    def __init__(self, module: str, name: str) -> None:
        self._module = module
        self._name = name

    def found(self) -> Job:
        """The function. A signal ends the tool at once meanwhile: nothing has begun, and an import
        may lose what a signal raises."""
        handlers = {number: signal.getsignal(number) for number in ending_signals()}
        heeded = {number: handler for number, handler in handlers.items() if callable(handler)}
        for number in heeded:
            signal.signal(number, signal.SIG_DFL)
        try:
            job: Job = getattr(importlib.import_module(self._module), self._name)
        finally:
            for number, handler in heeded.items():
                signal.signal(number, handler)
        return job

    def __call__(self, words: argparse.Namespace, progress: Progress) -> Optional[int]:
        return self.found()(words, progress)


def command(
    commands: Commands, name: str, job: Job, told: str, example: str, note: str = "", **given: Any
) -> argparse.ArgumentParser:
    """Adds a command, which does a job, to those of a tool. Its help ends with a note, if there is
    one, and an example of its use."""
    made = commands.add_parser(
        name,
        help=told,
        description=told[0].upper() + told[1:] + ".",
        formatter_class=argparse.RawDescriptionHelpFormatter,
        epilog=f"{note}\n\nExample:\n  {example}".lstrip(),
        **given,
    )
    made.set_defaults(job=job)
    return made


def group(commands: Commands, name: str, told: str, example: str, page: str) -> Commands:
    """Adds a command that has commands of its own; these. Its help has an example of one, and names
    the page that tells more."""
    made = commands.add_parser(
        name,
        help=told,
        description=told[0].upper() + told[1:] + ".",
        formatter_class=argparse.RawDescriptionHelpFormatter,
        epilog=f"Example:\n  {example}\n\n{page} tells more.",
    )
    return made.add_subparsers(required=True, metavar="COMMAND")


class Ended(BaseException):
    """A signal, by its number, that asks the tool to end."""


def open_closed_streams() -> bool:
    """Sees to it that no file gets the number of a standard stream that is closed; whether there is
    an output."""
    is_written = sys.stdout is not None
    while (handle := os.open(os.devnull, os.O_RDWR)) <= 2:
        pass
    os.close(handle)
    sys.stderr = sys.stderr or open(os.devnull, "w", encoding="ascii")
    if isinstance(sys.stdout, io.TextIOWrapper):
        # Names of files that are no text pass as the bytes that they are.
        sys.stdout.reconfigure(errors="surrogateescape")
    return is_written


@contextmanager
def _ending_at_signals() -> Iterator[None]:
    """Lets the signals that end a program raise meanwhile, so that what it has begun is undone.

    The first of them raises. Those that follow change nothing: the undoing goes on to its end.
    """
    # A caller such as nohup has some of them ignored.
    usual = (signal.SIG_DFL, signal.default_int_handler)
    before = {number: signal.getsignal(number) for number in ending_signals()}
    heeded = {number: handler for number, handler in before.items() if handler in usual}

    came: list[int] = []

    def end(number: int, _: object) -> None:
        came.append(number)
        for other in heeded:
            signal.signal(other, signal.SIG_IGN)
        # The user's own, by Ctrl-C, raises what Python raises for it.
        if number == signal.SIGINT:
            raise KeyboardInterrupt
        raise Ended(number)

    for number in heeded:
        signal.signal(number, end)
    try:
        yield
    finally:
        # After one that came the process ends, and has its own exit status.
        for number, handler in () if came else heeded.items():
            signal.signal(number, handler)


def ended_by(error: Exception) -> tuple[int, str]:
    """The exit status of a work that this error has ended, and what is told of it."""
    if isinstance(error, Trouble):
        return error.status, str(error)
    if isinstance(error, OSError):
        place = "standard output" if error.filename is None else error.filename
        return TROUBLE, f"{place}: {error.strerror or error}"
    return TROUBLE, NO_MEMORY


def run(name: str, work: Callable[[], int], progress: Optional[Progress] = None) -> int:
    """Does a tool's work, which answers its exit status; the status with which the tool is to end.

    What it can't do is told on standard error. Once this returns, all is undone that the work's own
    `with` and `finally` undo, also where a signal ended it.
    """
    if not open_closed_streams():
        say(f"{name}: standard output: it is closed\n")
        return TROUBLE
    reason = ""
    try:
        with _ending_at_signals(), files_of_run():
            status = work()
            if progress is not None:
                progress.clear()
            sys.stdout.flush()
        return status
    except BrokenPipeError:
        status = PIPE_CLOSED
    except KeyboardInterrupt:
        status = INTERRUPTED
    except Ended as ended:
        status = SIGNALLED + ended.args[0]
    except (Trouble, OSError, MemoryError) as error:
        status, reason = ended_by(error)
    if progress is not None:
        progress.clear()
    _end_output(is_kept=bool(reason))
    if reason:
        say(f"{name}: {reason}\n")
    return status


def _end_output(is_kept: bool) -> None:
    """Writes what is left of standard output, or drops it: it would fail once more when Python
    ends."""
    try:
        if is_kept:
            sys.stdout.flush()
    except OSError:
        is_kept = False
    if not is_kept:
        os.dup2(os.open(os.devnull, os.O_WRONLY), sys.stdout.fileno())


def runner(made: Callable[[], argparse.ArgumentParser]) -> Callable[[Optional[Sequence[str]]], int]:
    """What runs a tool's command line, and answers its exit status.

    Its parser sets a `job`, which takes the words and the progress, and answers a status or None.
    """

    def main(words: Optional[Sequence[str]] = None) -> int:
        progress = Progress()
        parser = made()

        def work() -> int:
            try:
                parsed = parser.parse_args(words)
            except SystemExit as ended:
                # The words ask for help, or mean nothing: the tool ends as ever.
                return int(ended.code or 0)
            for one in getattr(parsed, "rules", ()):
                one.check(parsed)
            files().take(parsed)
            return parsed.job(parsed, progress) or 0

        return run(parser.prog, work, progress)

    return main
