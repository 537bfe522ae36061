"""Images at their limits: of as many dots as may be, of few, of dark ones; heads of files; and how
long a frame of a picture that moves lasts at most."""

from __future__ import annotations

import io
import re
import struct
import zlib

from zaklimot.format import Picture
from zaklimot.commands.images.holding import held, held_size
from zaklimot.commands.images.png import Animation, ImageSize, Shape, block_lines
from zaklimot.commands.images.reading import Image, image_of, size_of

from .test_images import png
from .tools import BLACK, RED, WHITE, Folder, hold, png_chunks, ppm, refused


class Dots(Folder):
    def test_as_many_dots_as_may_be(self) -> None:
        # Those that are no more than the most are unpacked, and found to be cut off.
        def told(image: bytes) -> str:
            return refused(image_of, image, "i", 1 << 24).removeprefix("i: ")

        most = "the image has {} dots, and 16,777,216 are the most".format
        hold(
            self,
            told,
            (
                (png(4096, 4096, b""), "the PNG is damaged"),
                (png(8192, 2049, b""), most("8192x2049")),
                (b"P6 4096 4096 255\n", "the PPM of 4096x4096 dots is damaged"),
                (b"P6 1 16777217 63\n", "the header of the PPM is damaged"),
                (b"P6 3355444 5 63\n", most("3355444x5")),
            ),
        )
        hold(
            self,
            lambda width, height: refused(image_of, png(width, height, b""), "i"),
            (
                (10_000, 10_000, "i: the PNG is damaged"),
                (1, 100_000_001, "i: the image has 1x100000001 dots, and 100,000,000 are the most"),
            ),
        )

    def test_dots_of_a_ppm_that_look_like_blanks(self) -> None:
        self.assertEqual(image_of(ppm(1, 1, b"\n \t"), "i").rows, (b"\n \t",))
        self.assertEqual(image_of(ppm(1, 1, b"\x3f" * 3), "i").rows, (b"\x3f" * 3,))
        told = refused(image_of, ppm(1, 1, b"\x3f\x3f\x40"), "i")
        self.assertEqual(told, "i: the PPM of 1x1 dots is damaged")

    def test_rows_that_begin_alike(self) -> None:
        image = Image(2, 2, (RED + BLACK, RED + WHITE), 63)
        wanted = (RED * 2 + BLACK * 2, RED * 2 + WHITE * 2)
        self.assertEqual(image.repeated(2, 1).rows, wanted)

    def test_as_many_dots_as_an_enlarged_picture_has(self) -> None:
        self.assertEqual(Shape(2).size(5000, 5000), (10_000, 10_000))
        told = refused(Shape(2).size, 5000, 5001)
        self.assertEqual(
            told,
            "a picture of 5000x5001 dots would get 10000x10002, and 100,000,000 dots are the most",
        )

    def test_the_shape_of_a_monitor_is_rounded_to_the_next_dot(self) -> None:
        # Of 4 to 3: 8 by 3 is 2.7, 4 by 3 is 1.3, 16 by 3 is 5.3; 9 by 4 is 2.3, and a half is up.
        hold(
            self,
            lambda *size: Shape(1, True).size(*size),
            ((1, 2, (3, 2)), (1, 1, (1, 1)), (2, 4, (5, 4)), (3, 1, (3, 2)), (2, 1, (2, 2))),
        )

    def test_the_heads_of_files_that_are_cut_off(self) -> None:
        whole = png(7, 5, b"")
        self.assertEqual(size_of(whole[:24], "i"), (7, 5))
        for length in (8, 16, 23):
            self.assertEqual(refused(size_of, whole[:length], "i"), "i: the PNG is damaged")
        # A head of another length, and none.
        head = whole[8:33]
        other = struct.pack(">I", 12) + head[4:20]
        other += struct.pack(">I", zlib.crc32(other[4:]))
        for data in (whole.replace(head, other), whole.replace(head, b"")):
            self.assertEqual(refused(image_of, data, "i"), "i: the PNG is damaged")

    def test_the_head_of_a_ppm(self) -> None:
        # Comments may stand between any of its words, and one blank before the dots, which may
        # begin with the byte of a blank themselves.
        dots = b"\n\t "
        for head in (
            b"P6\n1 1\n63\n",
            b"P6 1 1 63 ",
            b"P6\r\n1\r\n1\r\n63\n",
            b"P6#a\n1#b\n1# c 9\n63\n",
            b"P6\n# a\n# b\n1\n#\n 1\n\n#c\n63\t",
        ):
            self.assertEqual(image_of(head + dots, "i").rows, (dots,), head)


class Held(Folder):
    def told(self, picture: Picture, image: bytes) -> str:
        """What is told of a picture and an image: how they were read, and how they differ."""
        found = held(picture, image_of(image, "i"))
        return "; ".join(filter(None, (found.how, found.told)))

    def test_lines_that_are_repeated_are_alike(self) -> None:
        lines = Picture.of_dots(1, 2, RED + WHITE)
        sizes = "they have 1x2 and 1x{} dots, and neither is the other with dots repeated".format
        hold(
            self,
            lambda dots: self.told(lines, ppm(1, len(dots) // 3, dots)),
            (
                (RED * 2 + WHITE * 2, "1x2, the image has each line twice, six bits a component"),
                (RED + BLACK + WHITE * 2, sizes(4)),
                (RED * 2 + WHITE + RED, sizes(4)),
                (
                    RED * 4 + WHITE * 4,
                    "1x2, the image has each line four times, six bits a component",
                ),
                (RED * 5 + WHITE * 5, sizes(10)),
                (RED * 2 + WHITE, sizes(3)),
            ),
        )

    def test_an_image_of_no_dots_has_another_size(self) -> None:
        picture = Picture.of_dots(2, 1, BLACK * 2)
        for width, height in ((0, 1), (2, 0), (0, 0)):
            told = held_size(picture, width, height)
            assert told is not None
            self.assertEqual(
                (told.differing, told.how.partition(" dots,")[0]),
                (None, f"they have 2x1 and {width}x{height}"),
            )

    def test_a_dark_image_is_read_as_it_is_nearest(self) -> None:
        # Of eight bits a component, none of which goes past 63; and of which the first row alone
        # doesn't.
        eight = "eight bits a component, of which six count"
        dark = Picture.of_dots(2, 1, b"\0\1\2\3\4\5")
        bright = Picture.of_dots(1, 2, BLACK + WHITE)
        hold(
            self,
            self.told,
            (
                (dark, png(2, 1, b"\0" + bytes(range(0, 24, 4))), f"2x1, {eight}"),
                (dark, png(2, 1, b"\0" + bytes(range(6))), "2x1, six bits a component"),
                (bright, png(1, 2, bytes(5) + b"\xff\xff\xff"), f"1x2, {eight}"),
                (bright, png(1, 2, bytes(5) + WHITE), "1x2, six bits a component"),
                # One that is alike in either way is read as it stands.
                (Picture.of_dots(1, 1, BLACK), png(1, 1, bytes(4)), "1x1, six bits a component"),
            ),
        )

    def test_a_difference_is_told_by_its_place(self) -> None:
        picture = Picture.of_dots(3, 2, WHITE * 6)
        image = ppm(3, 2, WHITE * 3 + RED + BLACK + WHITE)
        self.assertEqual(
            self.told(picture, image),
            "3x2, six bits a component; 2 of 6 dots differ, the first is dot 0 of row 1: 3F3F3F,"
            " not 3F0000",
        )


class Moving(Folder):
    def test_how_long_a_frame_lasts(self) -> None:
        # Below a second in parts of 50,000, from there on in hundredths, 655.35 seconds at most.
        seconds = (0.29, 0.99998, 1, 1.004, 655.35, 700)
        moving = Animation(Shape())
        for each in seconds:
            moving.add(Picture.of_dots(1, 1, RED), each, "it")
        with io.BytesIO() as stream:
            moving.write(stream)
            chunks = png_chunks(stream.getvalue())
        times = [struct.unpack_from(">HH", data, 20) for kind, data in chunks if kind == b"fcTL"]
        wanted = [
            (14_500, 50_000),
            (49_999, 50_000),
            (100, 100),
            (100, 100),
            (65_535, 100),
            (65_535, 100),
        ]
        self.assertEqual(times, wanted)
        self.assertEqual(moving.seconds, sum(seconds))

    def test_frames_of_one_size(self) -> None:
        moving = Animation(Shape(2))
        one, other = Picture.of_dots(2, 1, RED * 2), Picture.of_dots(1, 2, RED * 2)
        for name in ("step 1", "step 4"):
            moving.add(one, 1, name)
        self.assertEqual(
            refused(moving.add, other, 1, "step 9"),
            "step 9 has a picture of another size than step 1: --step picks those of one size",
        )
        self.assertEqual(len(moving.frames), 2)
        # In a size that is given each has it.
        stretched = Animation(Shape(2), ImageSize(3, 1))
        for picture in (one, other):
            stretched.add(picture, 1, "it")
        with io.BytesIO() as stream:
            stretched.write(stream)
            (head, *_) = png_chunks(stream.getvalue())
        self.assertEqual(struct.unpack_from(">II", head[1]), (6, 2))


class Blocks(Folder):
    def test_blocks_have_the_colours_of_their_dots(self) -> None:
        # Each block has two colours, of the dots above and of those below: of 4 by 3, eight columns
        # have six rows of colours. No more columns than dots, and two at least.
        red, green, blue = (63, 0, 0), (0, 63, 0), (0, 0, 32)
        picture = Picture.of_dots(2, 2, bytes([*red, *green, *blue, *blue]))
        lines = list(block_lines(picture, 80, 20))
        colours = [re.findall(r"38;2;([\d;]+);48;2;([\d;]+)m", line) for line in lines]
        self.assertEqual(colours, [[("255;0;0", "0;0;130"), ("0;255;0", "0;0;130")]])
        self.assertEqual(list(block_lines(picture, 1, 1)), lines)
        wide = Picture.of_dots(8, 6, bytes(8 * 6 * 3))
        for columns, high, widths in ((100, 20, [8] * 3), (4, 20, [4]), (100, 2, [5] * 2)):
            shown = block_lines(wide, columns, high)
            self.assertEqual([line.count("\u2580") for line in shown], widths)
        # Of several dots in a block the mean.
        mean = Picture.of_dots(4, 2, bytes([*red, *green] * 4))
        (line,) = block_lines(mean, 2, 20)
        # Blocks of the same colours that follow one another name them once.
        self.assertEqual(line, "\x1b[38;2;127;127;0;48;2;127;127;0m\u2580\u2580\x1b[0m")
