"""The options of commands that write pictures, or compare them."""

import argparse
from typing import Union

from zaklimot.commands.core.cli import add
from zaklimot.commands.core.words import MOST_SCALE, number_to

# What a tolerance may be: so much in each of the six bits of a component, or colours of five, six
# and five bits.
MOST_WITHIN = 63
FIVE_SIX_FIVE = "5-6-5"
Within = Union[int, str]
# What is told of a word that names an image.
IMAGES = "a PNG, or a PPM of the kind P6; any image where Python has pillow"


def within(word: str) -> Within:
    """Reads a tolerance: a number of the 63 steps of a component, or `5-6-5`."""
    if word == FIVE_SIX_FIVE:
        return word
    try:
        return number_to(MOST_WITHIN, 0)(word)
    except argparse.ArgumentTypeError as error:
        raise argparse.ArgumentTypeError(f"{error}, and not {FIVE_SIX_FIVE}") from error


def add_shape(parser: argparse.ArgumentParser) -> None:
    """The options of commands that write pictures, or compare them."""
    add(
        parser,
        "--scale N",
        "makes each dot N times as wide and as high",
        type=number_to(MOST_SCALE),
        default=1,
    )
    add(parser, "--aspect", "stretches pictures to 4:3, the shape of a monitor")
