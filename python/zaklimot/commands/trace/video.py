"""Pictures that move as a video, which ffmpeg makes: MP4 or WebM, by the name of the file."""

import os
from pathlib import Path
from shutil import copyfileobj
from tempfile import TemporaryDirectory
from typing import Sequence

from zaklimot.commands.core.files import STANDARD
from zaklimot.commands.core.processes import Word, check_program, run
from zaklimot.commands.core.streams import writing
from zaklimot.commands.core.trouble import Trouble
from zaklimot.commands.images.png import Animation

FFMPEG = "ffmpeg"
WITHOUT = ". Without it --apng FILE writes a picture that moves"
# What makes each kind of video, so that no dot is lost to the eye.
CODERS: dict[str, Sequence[str]] = {
    ".mp4": ("-c:v", "libx264", "-crf", "12", "-movflags", "+faststart"),
    ".webm": ("-c:v", "libvpx-vp9", "-crf", "20", "-b:v", "0"),
}
# As many pictures a second as a VGA's text has; and even sizes, since colours have a quarter of the
# dots.
FILTER = "fps=70,pad=ceil(iw/2)*2:ceil(ih/2)*2,format=yuv420p"
# Seconds that ffmpeg may take.
MOST_CODING = 3600


def check_video(path: str) -> None:
    """Ends the work, before it begins, where a video can't be made."""
    if path == STANDARD or os.path.splitext(path)[1].lower() not in CODERS:
        raise Trouble(f"a video's name ends in {' or '.join(CODERS)}", path)
    check_program(FFMPEG, WITHOUT)


def write_video(path: str, animation: Animation) -> None:
    """Writes pictures that move as a video."""
    ending = os.path.splitext(path)[1].lower()
    with TemporaryDirectory(prefix="zaklimot-") as name:
        moving, made = Path(name) / "moving.png", Path(name) / f"video{ending}"
        with open(moving, "wb") as stream:
            animation.write(stream)
        words: list[Word] = ["nice", "-n", "10", FFMPEG, "-nostdin", "-v", "error", "-f", "apng"]
        words += ["-i", moving, "-vf", FILTER, *CODERS[ending], made]
        run(words, seconds=MOST_CODING)
        with open(made, "rb") as video, writing(path) as output:
            copyfileobj(video, output)
