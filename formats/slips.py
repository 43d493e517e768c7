"""Shows that the comparison can fail: each slip stands between it and the archive, and has to be found.

    slips.py LIBRARY
"""

import re
import sys

from badge import RUBBISH, Badge
from compare import Tally, compare
from picture import pictures
from subset import number_of


def as_is(given):
    return given


class Slipped(Badge):
    """The archive with a slip in what the reader sees, in the picture it gives, in the file written or in a refusal."""

    def __init__(self, library, sees=as_is, gives=as_is, writes=as_is, refuses=as_is):
        super().__init__(library)
        self.sees, self.gives, self.writes, self.refuses = sees, gives, writes, refuses

    def size(self, file):
        return self.refuses(super().size(self.sees(file)))

    def read(self, file, room):
        number, picture = super().read(self.sees(file), room)
        return self.refuses((number, picture if picture is None else self.gives(picture)))

    def write(self, picture, room):
        number, file = super().write(picture, room)
        return number, file if file is None else self.writes(file)


def exchanged(picture):
    return picture._replace(pixels=picture.planes((3, 1, 2, 0)))


def cleared(picture):
    """Alpha 0 where it is 255."""
    pixels = bytearray(picture.pixels)
    pixels[3::4] = pixels[3::4].replace(b"\xff", b"\0")
    return picture._replace(pixels=bytes(pixels))


def cut(file):
    return file[:-1] if number_of(file)[1] == "bytes after the pixels" else file


SLIPS = {
    "none": {},
    "the reader exchanges red and alpha": {"gives": exchanged},
    "the reader gives alpha 0 for 255": {"gives": cleared},
    "the reader takes a second WIDTH": {"sees": lambda file: re.sub(rb"\nWIDTH 1(\nWIDTH)", rb"\1", file)},
    "the reader takes a comment after a blank": {"sees": lambda file: file.replace(b"\n #", b"\n#")},
    "the reader takes a sign": {"sees": lambda file: file.replace(b"WIDTH +", b"WIDTH ")},
    "the reader takes a byte that is left over": {"sees": cut},
    "a refusal writes": {"refuses": lambda answer: (answer[0], answer[1] or RUBBISH)},
    "2 comes before 10": {"refuses": lambda answer: (2, None) if answer[0] == 10 else answer},
    "the writer drops a byte": {"writes": lambda file: file[:-1] + bytes([RUBBISH])},
    "the writer has HEIGHT first": {"writes": lambda file: re.sub(rb"(WIDTH.*\n)(HEIGHT.*\n)", rb"\2\1", file, count=1)},
}


def main(library):
    failed = False
    drawn = list(pictures(1, small=[(2, 1), (3, 5)], large=[], random_sizes=0))
    for name, slip in SLIPS.items():
        tally = Tally(show=0)
        compare(tally, Slipped(library, **slip), drawn, 1, 200)
        found = f"found, first in `{next(iter(tally.differed))}`" if tally.differed else "nothing differs"
        print(f"slip: {name}: {found}")
        failed |= bool(slip) != bool(tally.differed)
    return 1 if failed else 0


if __name__ == "__main__":
    sys.exit(main(*sys.argv[1:]))
