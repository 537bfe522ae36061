"""Sets mode 13, draws its 256 colours, and writes a picture: picture.py PICTURE.ppm (or
PICTURE.png)"""

from __future__ import annotations

import sys
from pathlib import Path

import zaklimot


def draw(card: zaklimot.Card) -> zaklimot.Picture:
    card.int10(ax=0x0013)
    card.put_bytes(
        0xA0000, bytes(x // 20 + 16 * (2 * y // 25) for y in range(200) for x in range(320))
    )
    return card.frame()


def main() -> int:
    if len(sys.argv) != 2:
        print(__doc__, file=sys.stderr)
        return 2
    path = Path(sys.argv[1])
    with zaklimot.Card() as card:
        picture = draw(card)
        try:
            path.write_bytes(picture.png() if path.suffix == ".png" else picture.ppm())
        except OSError as error:
            print(f"{path}: {error.strerror}", file=sys.stderr)
            return 1
    return 0


if __name__ == "__main__":
    sys.exit(main())
