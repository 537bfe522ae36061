"""Where the suite lies, and how folders of scripts and their pictures are laid out."""

from zaklimot.commands import TOP


SUITE = TOP / "crates" / "vga_suite" / "data" / "list.txt"
# The file of a folder of scripts that names the font of each.
LIST = "list.txt"
