"""Header texts, each with a raster after it: one odd thing at a time, and many at random."""

import random
import re

STANDARD = [b"P7", b"WIDTH 2", b"HEIGHT 1", b"DEPTH 4", b"MAXVAL 255", b"TUPLTYPE RGB_ALPHA", b"ENDHDR"]
RASTER = bytes(range(1, 9))

# What takes the place of a standard line, by its name; nothing where the line is left out.
ODD = {
    b"P7": [b"P7 ", b"P7\r", b"P7 and more", b"P7WIDTH 9", b" P7", b"P6", None],
    b"WIDTH": [
        *(b"WIDTH 1\nWIDTH 2", b"WIDTH 2\nWIDTH 2", None, b"WIDTH", b"WIDTH2", b"width 2", b"WIDTH 2 3", b"WIDTH 2 # two"),
        *(b"WIDTH +2", b"WIDTH -2", b"WIDTH -0", b"WIDTH 0x2", b"WIDTH 2.0", b"WIDTH 0"),
        *(b"WIDTH 4097", b"WIDTH " + b"9" * 40),
        *(b"WIDTH 2\0junk", b"WIDTH\0002", b"WIDTH\xa02", b"\0\nWIDTH 2", b"\v\fWIDTH\t \r2\t"),
        *(b"# a comment\n\n\t\nWIDTH 2", b" # no comment\nWIDTH 2"),
        *(b"#" + b"x" * 255 + b"\nWIDTH 2", b"WIDTH 2\n#" + b"x" * 254 + b"WIDTH 1", b"#" + b"x" * 254 + b"WIDTH 2"),
        *(b"WIDTH " + b"0" * 40 + b"2", b"WIDTH " + b"0" * 300 + b"2", b"WIDTH" + b" " * 300 + b"2"),
    ],
    b"HEIGHT": [b"HEIGHT 0", None],
    b"DEPTH": [b"DEPTH 5", b"DEPTH 3", None],
    b"MAXVAL": [b"MAXVAL 65535", b"MAXVAL 254", b"MAXVAL 7\nMAXVAL 255", None],
    b"TUPLTYPE": [
        *(None, b"TUPLTYPE", b"TUPLTYPE RGB", b"TUPLTYPE rgb_alpha", b"TUPLTYPE RGB _ALPHA"),
        *(b"TUPLTYPE RGB\nTUPLTYPE ALPHA", b"TUPLTYPE RGB_ALPHA\nAUTHOR someone"),
    ],
    b"ENDHDR": [b"ENDHDR\t ", b"ENDHDR and more", None],
}
# Rasters that let netpbm read a file to its end.
RASTERS = {
    b"WIDTH 4097": bytes(4 * 4097),
    b"WIDTH 2\n#" + b"x" * 254 + b"WIDTH 1": b"\1\2\3\4    ",
    b"DEPTH 5": bytes(10),
    b"MAXVAL 65535": bytes(16),
}

# One line of a random text is changed by one of these: what is found, and what takes its place.
CHANGES = [
    (rb"(\d+)", rb"+\1"),
    (rb"(\d+)", rb"-\1"),
    (rb"(\d+)", rb"000\1"),
    (rb"(\d+)", rb"\1 \1"),
    (rb"(\d+)", rb"\1.0"),
    (rb"\d+", b"0"),
    (rb"\d+", b"4097"),
    (rb"\d+", b"9" * 40),
    (rb"\d+", b"1" + b"0" * 20),
    (rb"\d+", b""),
    (rb"[\t\v\f\r ]+", b"\0"),
    (rb"[\t\v\f\r ]+", b"\xa0"),
    (rb"[\t\v\f\r ]+", b""),
    (rb"[\t\v\f\r ]+", b" " * 260),
    (rb"^", b"#"),
    (rb"^", b" #"),
    (rb"^", b"\0"),
    (rb"$", b" more"),
    (rb"$", b"\0more"),
    (rb"[A-Z]", b"x"),
    (rb"RGB_ALPHA", b"RGB"),
    (rb"RGB_ALPHA", b"RGB _ALPHA"),
    (rb"RGB", b"GRAYSCALE"),
    (rb"3|4", b"5"),
    (rb"255", b"65535"),
]

SIZES = [(1, 1), (2, 1), (1, 3), (3, 2), (5, 4), (17, 9), (4096, 1), (1, 4096)]
SIZES_REFUSED = [(0, 5), (5, 0), (0, 4097), (4097, 0), (4097, 1), (1, 4097), (1024, 1025), (4096, 257), (0, 0)]
FILLERS = [b"", b"\t", b"\v\f\r ", b"#", b"# a comment", b"#WIDTH 9", b"#ENDHDR", b"#\0\xff", b"#" * 255, b"#" + b"y" * 600]


def standard(name=None, text=None):
    """The standard header, with the line of this name replaced by a text or left out."""
    lines = [text if line.split()[0] == name else line for line in STANDARD]
    return b"".join(line + b"\n" for line in lines if line is not None)


def odd_texts():
    """(The odd lines, or words for what is odd; the file): one odd thing at a time."""
    for name, odd in ODD.items():
        for text in odd:
            yield text or f"no {name.decode()}", standard(name, text) + RASTERS.get(text, RASTER)
    whole = standard()
    yield "one byte of the raster missing", whole + RASTER[:-1]
    yield "a newline after the raster", whole + RASTER + b"\n"
    yield "an x after the raster", whole + RASTER + b"x"
    yield "two pictures", (whole + RASTER) * 2
    yield "ENDHDR not ended, no raster", whole[:-1]
    yield "an empty file", b""


def white(rng, least):
    return bytes(rng.choices(b"\t\v\f\r ", k=rng.choice((least, least, least, 1, 2))))


def spaced(rng, tokens):
    return white(rng, 0) + white(rng, 1).join(tokens) + white(rng, 0)


def changed(rng, lines):
    """One line doubled, left out, exchanged with another or changed."""
    at, other = rng.randrange(len(lines)), rng.randrange(len(lines))
    what = rng.randrange(10)
    if what == 0:
        lines.insert(other, lines[at])
    elif what == 1 and len(lines) > 1:
        del lines[at]
    elif what == 2:
        lines[at], lines[other] = lines[other], lines[at]
    else:
        found, put = rng.choice(CHANGES)
        lines[at] = re.sub(found, put, lines[at], count=1)


def random_text(rng):
    """A file of a random size, its lines in any order, with up to two changes and at times a raster of another length."""
    (width, height), depth = rng.choice(SIZES * 3 + SIZES_REFUSED), rng.choice((3, 4))
    names = (b"WIDTH", b"HEIGHT", b"DEPTH", b"MAXVAL", b"TUPLTYPE")
    numbers = (b"%d" % number for number in (width, height, depth, 255))
    entries = list(zip(names, (*numbers, {3: b"RGB", 4: b"RGB_ALPHA"}[depth])))
    rng.shuffle(entries)
    lines = [spaced(rng, entry) for entry in entries]
    for _ in range(rng.randrange(4)):
        lines.insert(rng.randint(0, len(lines)), rng.choice(FILLERS))
    lines = [b"P7", *lines, spaced(rng, (b"ENDHDR",))]
    for _ in range(rng.choice((0, 0, 1, 1, 2))):
        changed(rng, lines)
    length = depth * width * height if width * height <= 4096 else 7
    raster = rng.randbytes(max(0, length + rng.choice((0, 0, 0, 0, 0, 0, -1, 1))))
    return b"\n".join(lines) + b"\n" + raster


def texts(seed, count):
    """(What is shown of it, the file): the odd texts, and so many random ones."""
    yield from odd_texts()
    rng = random.Random(seed)
    for _ in range(count):
        file = random_text(rng)
        yield file[:200], file
