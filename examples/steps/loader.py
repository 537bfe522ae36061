"""Holds the toy adapter to single-step tests:

    python3 examples/steps/loader.py examples/steps/write-mode-0-planar.json.gz
"""

import gzip
import json
import sys

from toy import Toy, answer


def main(path: str) -> int:
    """Loads a file, and counts the elements that the adapter does as they say."""
    card, right, wrong = Toy(), 0, 0
    with gzip.open(path, "rb") as file:
        elements = json.load(file)
    for element in elements:
        wanted = {name: element[name] for name in ("final", "answer", "refused") if name in element}
        if answer(card, element) == wanted:
            right += 1
        else:
            wrong += 1
            if wrong == 1:
                print("the first that differs:", json.dumps(element))
    print(f"{right} right, {wrong} wrong")
    return int(wrong > 0 or not right)


if __name__ == "__main__":
    sys.exit(main(sys.argv[1]))
