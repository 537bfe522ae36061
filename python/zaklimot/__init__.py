"""A VGA display adapter with its video BIOS, from Python, by its library for C.

You open a card, call it and close it. Ports, addresses and registers are those of a VGA:

    import zaklimot

    with zaklimot.Card() as card:
        card.int10(ax=0x0003)                    # mode 3: 80 by 25 cells of text
        for letter in b"HELLO":
            card.int10(ax=0x0E00 + letter)       # the teletype function
        print(card.text()[0])                    # HELLO
        print(hex(card.inp(0x3CC)))              # 0x67
        picture = card.frame()                   # lets the clock run to the frame's end
        print(picture.width, picture.height)     # 720 400
        open("hello.png", "wb").write(picture.png())

A whole script (docs/SCRIPT.md) runs without a card:

    report = zaklimot.run("int ax=13\\nput A0000 0F\\nget A0000\\nframe\\nin 60")
    print(report[2].value)                       # 15
    print(report[3].picture[0, 0].red)           # 63
    print(report[4].refusal.__name__)            # NotDecoded

For long scripts, a Script lets you use loops and names.

Cycles take no time on the card: the clock runs only in `advance` and in frames. A call that the
adapter refuses raises a `Refusal`, such as NotDecoded, and changes nothing. A number out of range
is a ValueError. All exceptions of the package are subclasses of `zaklimot.Error`.

The package looks for the library as the file that ZAKLIMOT_LIBRARY names, below the folder
ZAKLIMOT_DIR, in the package, and where `tools/vga-library install` puts it. `library()` says which
one it is: the proved one, or the portable one, which a C compiler makes. docs/PYTHON.md is the
guide.
"""

import sys
from importlib import import_module
from typing import TYPE_CHECKING, Any

if sys.version_info < (3, 9):
    TOO_OLD = "this needs Python 3.9 or later, not %d.%d" % sys.version_info[:2]
    if sys.argv[:1] == ["-m"]:
        # `python -m zaklimot` ends with a sentence, as the command does.
        sys.stderr.write(TOO_OLD + "\n")
        raise SystemExit(2)
    raise ImportError(TOO_OLD)

from . import format  # noqa: E402

if TYPE_CHECKING:
    from ._api import *  # noqa: F403
    from ._api import __all__ as __all__, __version__ as __version__


def __getattr__(name: str) -> Any:
    """What `_api` offers. It is imported at its first use, so that programs that need only `format`
    start fast."""
    if not name.startswith("_") or name in ("__all__", "__version__"):
        api = import_module("._api", __name__)
        globals().update(
            {one: getattr(api, one) for one in (*api.__all__, "__all__", "__version__")}
        )
        if name in globals():
            return globals()[name]
    raise AttributeError(f"module {__name__!r} has no attribute {name!r}")


def __dir__() -> list[str]:
    return sorted({*globals(), *__getattr__("__all__")})
