"""The commands of Zaklimot, in parts. A part uses those before it in PARTS, and no other.

`core` is what all have in common. `script` finds and runs the program. `explain` has reasons.
`images` has pictures. `report`, `trace`, `floppy` and `steps` are the tools of these
names.
"""

from pathlib import Path

PARTS = (
    "core",
    "script",
    "explain",
    "images",
    "report",
    "trace",
    "floppy",
    "steps",
)
HERE = Path(__file__).resolve().parent
# What the commands read of the project lies below this folder: a clone, a release, or what `pip`
# has laid beside the modules.
CARRIED = HERE / "carried"
TOP = CARRIED if CARRIED.is_dir() else HERE.parents[2]
