"""The subset of PAM that the library takes, read a second time: from the words of the request and not from the library.

A header outside it is refused with 10, a size above the bound with 2, pixels missing or left over with 11, in this order.
"""

from picture import Picture

NUMBERS = (b"WIDTH", b"HEIGHT", b"DEPTH", b"MAXVAL")
NAMES = (*NUMBERS, b"TUPLTYPE")
TUPLES = {b"RGB": 3, b"RGB_ALPHA": 4}
LARGE = 10**9
WHITE = b"\t\v\f\r "


class Refused(Exception):
    """A number, and why."""

    def __init__(self, number, why):
        super().__init__(number, why)
        self.number = number
        self.why = why


def header_lines(file):
    """The header's lines after the magic and without ENDHDR, each without its newline; and what comes after the header."""
    magic, newline, rest = file.partition(b"\n")
    if magic + newline != b"P7\n":
        raise Refused(10, "a first line other than `P7`")
    lines = []
    while True:
        line, newline, rest = rest.partition(b"\n")
        if not newline:
            raise Refused(10, "no ENDHDR line, or not ended")
        if line.split()[:1] == [b"ENDHDR"]:
            if line.strip(WHITE) != b"ENDHDR":
                raise Refused(10, "more after ENDHDR on its line")
            return lines, rest
        lines.append(line)


def entry(line):
    """A line's name and value."""
    name, *tokens = line.split()
    if name not in NAMES:
        raise Refused(10, "a line with no such name")
    if name == b"TUPLTYPE":
        return name, line.strip(WHITE)[len(name) :].strip(WHITE)
    if len(tokens) != 1:
        raise Refused(10, "not one token after a name")
    if not tokens[0].isdigit():
        raise Refused(10, "a number that is not digits alone")
    digits = tokens[0].lstrip(b"0")
    return name, min(LARGE, int(digits or b"0")) if len(digits) < 20 else LARGE


def values(lines):
    """The values by name, each of which stands once."""
    entries = [entry(line) for line in lines if not line.startswith(b"#") and line.strip(WHITE)]
    names = [name for name, _ in entries]
    for name in NAMES:
        if names.count(name) > 1:
            raise Refused(10, "TUPLTYPE twice" if name == b"TUPLTYPE" else "a number's line twice")
        if name not in names:
            raise Refused(10, "no TUPLTYPE line" if name == b"TUPLTYPE" else "a number's line missing")
    return dict(entries)


def bounded(width, height):
    """Nothing where a picture may have this size."""
    if width == 0 or height == 0:
        raise Refused(10, "no pixels")
    if width > 4096 or height > 4096 or width * height > 1048576:
        raise Refused(2, "a size above the bound")


def read(file):
    """The picture of a file."""
    lines, raster = header_lines(file)
    value = values(lines)
    if value[b"MAXVAL"] != 255:
        raise Refused(10, "MAXVAL other than 255")
    if value[b"TUPLTYPE"] not in TUPLES:
        raise Refused(10, "another tuple type")
    depth = TUPLES[value[b"TUPLTYPE"]]
    if value[b"DEPTH"] != depth:
        raise Refused(10, "a depth that is not the tuple type's own")
    width, height = value[b"WIDTH"], value[b"HEIGHT"]
    bounded(width, height)
    needed = depth * width * height
    if len(raster) < needed:
        raise Refused(11, "pixels missing")
    if len(raster) > needed:
        raise Refused(11, "a second picture" if raster.startswith(b"P7", needed) else "bytes after the pixels")
    if depth == 4:
        return Picture(width, height, raster)
    pixels = (raster[at : at + 3] + b"\xff" for at in range(0, len(raster), 3))
    return Picture(width, height, b"".join(pixels))


def number_of(file):
    """The number of the answer, why, and the picture of a file that is accepted."""
    try:
        return 0, "", read(file)
    except Refused as refused:
        return refused.number, refused.why, None


def form(picture):
    """The one form of a file that the writer makes."""
    lines = ("P7", "WIDTH %d", "HEIGHT %d", "DEPTH 4", "MAXVAL 255", "TUPLTYPE RGB_ALPHA", "ENDHDR", "")
    return "\n".join(lines).encode() % (picture.width, picture.height) + picture.pixels
