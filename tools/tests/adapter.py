"""A harness for tests, which answers each step of a text by its first word: adapter.py SCRIPT
[FONTS [--until STEPS]].

`in 3CC` answers the number of bytes in the font file, `in` of another port 00, `get` FF, `show` its
last word; `frame` is left out. `wait` sleeps, `crash` ends with status 3, `cut` ends within a line,
`fault` is the fault of a bad line.
"""

import sys
import time
from pathlib import Path

lines = [
    line.partition(";")[0].split() for line in Path(sys.argv[1]).read_text("ascii").splitlines()
]
until = int(sys.argv[4]) if sys.argv[4:] else None
for number, words in enumerate([line for line in lines if line][:until], 1):
    if words[0] == "fault":
        sys.exit("adapter: F7 BadLine(2)")
    if words[0] == "crash":
        print("first\nno such part\x07", file=sys.stderr)
        sys.exit(3)
    if words[0] == "wait":
        time.sleep(60)
    if words[0] == "cut":
        sys.stdout.write(f"{number} o")
        break
    read = f"{Path(sys.argv[2]).stat().st_size:02X}" if words == ["in", "3CC"] else "00"
    print(
        number, {"frame": "skipped", "get": "FF", "show": words[-1], "in": read}.get(words[0], "ok")
    )
