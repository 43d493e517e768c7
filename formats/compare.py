"""Holds the library's PAM reader and writer to netpbm, to ImageMagick and to a second reading of the subset (subset.py).

    compare.py LIBRARY [SEED] [TEXTS]

Prints each thing that was compared with how often, and the table of differences from netpbm. Fails where an answer differs.
"""

import sys
from collections import Counter

import netpbm
import tools
from badge import Badge
from headers import texts
from picture import Picture, pictures
from subset import Refused, bounded, form, number_of


class Tally:
    """How often each thing was compared, and how often it differed."""

    def __init__(self, show=5):
        self.compared, self.differed, self.show = Counter(), Counter(), show

    def hold(self, what, got, wanted, of):
        """Counts one comparison; `got` may be a function, whose failure is a difference."""
        try:
            got = got() if callable(got) else got
        except tools.Failed as failed:
            got = str(failed)
        self.compared[what] += 1
        if got != wanted:
            self.differed[what] += 1
            if self.differed.total() <= self.show:
                print(f"differs: {what}: {of}\n  got    {brief(got)}\n  wanted {brief(wanted)}")


def brief(value):
    text = repr(value)
    return text if len(text) < 300 else text[:300] + ".."


def read_by_tools(tally, badge, name, picture):
    """What we write is the one form, and each tool reads it as the same picture."""
    wanted = form(picture)
    tally.hold("we write: length", badge.length(*picture[:2]), (0, len(wanted)), name)
    number, file = badge.write(picture, len(wanted))
    tally.hold("we write: the one form", (number, file), (0, wanted), name)
    tally.hold("we write: 3 for a buffer of another length", badge.write(picture, len(wanted) + 1), (3, None), name)
    described = (*map(str, picture[:2]), "4", "255", "RGB_ALPHA")
    ways = (
        ("pamfile: width, height, depth, maxval, tuple type", tools.pamfile, described),
        ("pamtopam: size and pixels", tools.pixels_by_pamtopam, picture),
        ("pamtopam, which writes the same bytes again", tools.pamtopam, wanted),
        ("ImageMagick: size and pixels", tools.pixels_by_magick, picture),
        ("ourselves: size and pixels", lambda given: badge.read(given, len(picture.pixels))[1], picture),
    )
    for what, read, said in ways:
        tally.hold(f"we write, read by {what}", lambda: read(file), said, name)


def read_by_us(tally, badge, name, picture):
    """What the tools write we read as the same picture, or refuse with 10 for the reason given."""

    def readings(write):
        file = write(picture)
        return badge.size(file), badge.read(file, len(picture.pixels)), number_of(file)[1]

    for way, write, said in tools.WITHIN:
        wanted = (0, picture[:2]), (0, said(picture)), ""
        tally.hold(f"we read: {way}", lambda: readings(write), wanted, name)
    for way, write, why in tools.OUTSIDE:
        wanted = (10, None), (10, None), why
        tally.hold(f"we refuse with 10: {way} ({why})", lambda: readings(write), wanted, name)


def read_texts(tally, badge, seed, count):
    """Header texts, on which our numbers, sizes and pixels are the second reading's. Gives them with that reading."""
    for shown, file in texts(seed, count):
        number, why, picture = number_of(file)
        size, room = (picture[:2], len(picture.pixels)) if picture else (None, 16)
        tally.hold(f"header texts, {number}: badge_pam_size", badge.size(file), (number, size), shown)
        tally.hold(f"header texts, {number}: badge_read_pam", badge.read(file, room), (number, picture), shown)
        for other in (room - 1, room + 1):
            wanted = (number or 3, None)
            tally.hold("header texts: a pixel buffer of another length", badge.read(file, other), wanted, shown)
        yield shown, file, number, why, picture


def sizes_written(tally, badge):
    """Sizes that the writer takes or refuses, the ends of each bound among them."""
    sides = (0, 1, 2, 255, 256, 257, 1023, 1024, 1025, 4095, 4096, 4097, 2**16, 2**31, 2**32 - 1)
    for width, height in ((width, height) for width in sides for height in sides):
        try:
            bounded(width, height)
            wanted = (0, len(form(Picture(width, height, b""))) + 4 * width * height)
        except Refused as refused:
            wanted = (refused.number, None)
            written = badge.write(Picture(width, height, bytes(8)), 9)
            tally.hold("sizes refused: badge_write_pam", written, wanted, (width, height))
        tally.hold("sizes: badge_pam_length", badge.length(width, height), wanted, (width, height))


def compare(tally, badge, drawn, seed, count):
    """All of it but the differences from netpbm; gives the header texts as read."""
    for name, picture in drawn:
        read_by_tools(tally, badge, name, picture)
        read_by_us(tally, badge, name, picture)
    sizes_written(tally, badge)
    return list(read_texts(tally, badge, seed, count))


def main(library, seed="1", count="5000"):
    tally, drawn = Tally(), list(pictures(int(seed)))
    read = compare(tally, Badge(library), drawn, int(seed), int(count))
    groups = netpbm.differences(read)
    for key, group in groups.items():
        tally.hold("differences from netpbm: each has a reason", key[0] in netpbm.REASONS, True, (key, group))
    sizes = {picture[:2] for _, picture in drawn}
    print(f"{len(drawn)} pictures, {len(sizes)} sizes; {len(read):,} header texts; seed {seed}\n")
    for what, times in tally.compared.items():
        print(f"{times:8,} compared, {tally.differed[what]:,} differ: {what}")
    print(f"{tally.compared.total():8,} compared, {tally.differed.total():,} differ: in all\n")
    print("Header texts on which netpbm and we differ:\n", *netpbm.table(groups), sep="\n")
    numbers = {number for _, _, number, _, _ in read}
    return 1 if tally.differed or numbers != {0, 2, 10, 11} else 0


if __name__ == "__main__":
    sys.exit(main(*sys.argv[1:]))
