"""The signals by which the user and the system end a tool."""

import signal

NAMES = ("SIGINT", "SIGTERM", "SIGHUP")


def ending_signals() -> list[signal.Signals]:
    """Those of them that this system has."""
    return [getattr(signal, name) for name in NAMES if hasattr(signal, name)]
