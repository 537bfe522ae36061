"""Images of formats that the standard library can't read, by Pillow, which Python may have."""

import io
import warnings
from typing import Any, Optional

from zaklimot.commands.core.trouble import Trouble

from .png import ImageSize

# What is told of an image where Pillow is missing.
WITHOUT = "the package pillow reads other images: pip install pillow, or Debian's python3-pil"
# What Pillow reads by other programs.
LEFT_OUT = ("EPS",)
# Where a photo tells how the camera was held, and what it tells of one that lies on its side.
ORIENTATION = 0x0112
ON_ITS_SIDE = range(5, 9)


def pillow() -> Optional[Any]:
    """Pillow's module of images; None where Python has none."""
    try:
        from PIL import Image
    except ImportError:
        return None
    return Image


def opened(module: Any, data: bytes, name: str) -> Any:
    """An image as Pillow opens it, which has read no more than its size; a Trouble where it is
    none."""
    module.init()
    formats = [kind for kind in module.OPEN if kind not in LEFT_OUT]
    try:
        with warnings.catch_warnings():
            # The number of dots is looked at here.
            warnings.simplefilter("ignore", module.DecompressionBombWarning)
            return module.open(io.BytesIO(data), formats=formats)
    except (OSError, ValueError, SyntaxError, module.DecompressionBombError) as error:
        raise _unread(error, name) from error


def size_of(image: Any, name: str) -> ImageSize:
    """The size of an image that stands upright. Some tell how they stand behind their dots only."""
    width, height = image.size
    try:
        is_on_side = image.getexif().get(ORIENTATION, 1) in ON_ITS_SIDE
    except (OSError, ValueError, SyntaxError, EOFError) as error:
        raise _unread(error, name) from error
    return ImageSize(height, width) if is_on_side else ImageSize(width, height)


def rows_of(image: Any, name: str) -> tuple[bytes, ...]:
    """The rows of an image that stands upright, three bytes a dot."""
    from PIL import ImageOps

    try:
        made = ImageOps.exif_transpose(image).convert("RGB")
        dots = made.tobytes()
    except (OSError, ValueError, SyntaxError, EOFError) as error:
        raise _unread(error, name) from error
    step = 3 * made.size[0]
    return tuple(dots[at : at + step] for at in range(0, len(dots), step))


def _unread(error: Exception, name: str) -> Trouble:
    """What ends the work at an error of Pillow's, without the stream that it names."""
    told = str(error).partition(" <_io")[0] or type(error).__name__
    return Trouble(f"pillow can't read it: {told}", name)
