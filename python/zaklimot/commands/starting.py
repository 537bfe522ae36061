"""How a command begins: it can be interrupted while its modules are still being read."""

import importlib
import signal
from typing import Callable


def start(module: str) -> int:
    """Runs the command line by the `main` of a module; its exit status.

    Until that heeds signals, Ctrl-C ends the process as it ends other programs: Python would show
    where it was. One that the command's first lines have made wait comes now.
    """
    if signal.getsignal(signal.SIGINT) is signal.default_int_handler:
        signal.signal(signal.SIGINT, signal.SIG_DFL)
    if hasattr(signal, "pthread_sigmask"):
        signal.pthread_sigmask(signal.SIG_UNBLOCK, {signal.SIGINT})
    main: Callable[[], int] = importlib.import_module(module).main
    return main()


def zaklimot() -> int:
    """The command `zaklimot`, as pip calls it."""
    return start("zaklimot.commands.words")
