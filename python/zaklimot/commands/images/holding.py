"""A picture held against an image of another program, whose dots may stand several times, and whose
colours may have fewer bits."""

from typing import Callable, NamedTuple, Optional

from zaklimot.format import Picture
from zaklimot.format.picture import DifferentDots, different_dots

from .reading import Image
from .words import Within

# Dots or lines that stand so often, as they are told.
TIMES = {1: "", 2: "twice", 3: "three times", 4: "four times"}
# The bits of five, six and five that count of a component's six.
MASKS = (0x3E, 0x3F, 0x3E)


def _is_within(tolerance: Within) -> Callable[[bytes, bytes], bool]:
    """What tells whether two dots are alike."""
    if isinstance(tolerance, str):
        return lambda one, other: not any((a ^ b) & m for a, b, m in zip(one, other, MASKS))
    most = tolerance
    return lambda one, other: all(abs(a - b) <= most for a, b in zip(one, other))


def _eased(picture: Picture, image: Picture, tolerance: Within) -> Picture:
    """An image with the dots of the picture, where those are within the tolerance."""
    is_within = _is_within(tolerance)
    size = 3 * image.width * image.height
    wanted = picture.ppm[-size:]
    dots = bytearray(image.ppm[-size:])
    for at in range(0, size, 3):
        dot = wanted[at : at + 3]
        other = bytes(dots[at : at + 3])
        if other != dot and is_within(dot, other):
            dots[at : at + 3] = dot
    return Picture.of_dots(image.width, image.height, bytes(dots))


def _times(size: int, other: int) -> Optional[int]:
    """How often the dots of the smaller of two sizes stand in the larger; None where they don't."""
    least, most = sorted((size, other))
    times = most // max(least, 1)
    return times if times * least == most and times in TIMES else None


def told_dots(picture: Picture, other: Picture) -> str:
    """How two pictures of one size differ; empty where they don't."""
    found = different_dots(picture, other)
    if found is None:
        return ""
    colours = f"{picture.dot(found.x, found.y)}, not {other.dot(found.x, found.y)}"
    count = picture.width * picture.height
    return (
        f"{found.count} of {count} dots differ, the first is dot {found.x} of row {found.y}:"
        f" {colours}"
    )


def _fitted(picture: Picture, image: Image) -> Optional[tuple[Image, str]]:
    """An image brought to the size of a picture, and how; None where neither is the other with dots
    or lines repeated."""
    told = []
    for what, size, other in (
        ("dot", picture.width, image.width),
        ("line", picture.height, image.height),
    ):
        times = _times(size, other)
        if times is None:
            return None
        factors = (times, 1) if what == "dot" else (1, times)
        if other > size:
            whole = image
            image = image.every(*factors)
            if image.repeated(*factors) != whole:
                return None
            told.append(f"the image has each {what} {TIMES[times]}")
        elif other < size:
            image = image.repeated(*factors)
            told.append(f"the picture has each {what} of the image {TIMES[times]}")
    return image, ", ".join(told)


class ReadImage(NamedTuple):
    """An image in six bits a component, where it differs from a picture, and how its components
    were read."""

    picture: Picture
    difference: Optional[DifferentDots]
    told: str

    @property
    def differing(self) -> int:
        """How many dots differ."""
        return 0 if self.difference is None else self.difference.count


def _best(picture: Picture, image: Image, tolerance: Within) -> ReadImage:
    """The image as it is nearest to the picture."""
    found = []
    largest = max(max(row) for row in image.rows)
    for is_possible, shift, told in (
        (image.most == 63 or largest <= 63, 0, "six bits a component"),
        (image.most == 255, 2, "eight bits a component, of which six count"),
    ):
        if is_possible:
            read = image.picture(shift)
            read = _eased(picture, read, tolerance) if tolerance else read
            found.append(ReadImage(read, different_dots(picture, read), told))
    return min(found, key=lambda read: read.differing)


class Held(NamedTuple):
    """A picture held against an image: how many dots differ, None where the sizes do; how both were
    read, and what is told.

    `image` has the image's dots where there are as many.
    """

    differing: Optional[int]
    how: str
    told: str = ""
    image: Optional[Picture] = None


def _of_other_size(picture: Picture, width: int, height: int) -> Held:
    sizes = f"{picture.size} and {width}x{height}"
    return Held(None, f"they have {sizes} dots, and neither is the other with dots repeated")


def held_size(picture: Picture, width: int, height: int) -> Optional[Held]:
    """What comes of an image of this size where the picture can't have it; None where it may."""
    if _times(picture.width, width) is None or _times(picture.height, height) is None:
        return _of_other_size(picture, width, height)
    return None


def held(picture: Picture, image: Image, tolerance: Within = 0) -> Held:
    """Holds a picture against an image. Dots within the tolerance are alike."""
    fitted = _fitted(picture, image)
    if fitted is None:
        return _of_other_size(picture, image.width, image.height)
    image, told = fitted
    read = _best(picture, image, tolerance)
    eased = f"within {tolerance}" if tolerance else ""
    how = ", ".join(part for part in (picture.size, told, read.told, eased) if part)
    return Held(read.differing, how, told_dots(picture, read.picture), read.picture)
