"""The tools: how each is asked to read a PAM file or to write one. A tool that fails answers with its own words."""

import os
import re
import subprocess
import tempfile

from picture import Picture
from subset import number_of

MAGICK = os.environ.get("MAGICK", "/usr/bin/convert")


class Failed(Exception):
    """What a tool said on its way out."""


def ask(command, data):
    """What a command writes, given data to read."""
    done = subprocess.run(command, input=data, capture_output=True, check=False)
    if done.returncode != 0:
        said = done.stderr.decode("latin-1").strip().splitlines()
        raise Failed(said[0] if said else f"status {done.returncode}")
    return done.stdout


def pamfile(file):
    """What pamfile says: width, height, depth, maxval, tuple type."""
    said = ask(["pamfile"], file).decode("latin-1")
    words = re.fullmatch(r"stdin:\tPAM, (\d+) by (\d+) by (\d+) maxval (\d+)\n    Tuple type: (.*)\n", said, re.DOTALL)
    return words.groups() if words else said


def pamtopam(file):
    return ask(["pamtopam"], file)


def pixels_by_pamtopam(file):
    """Its one picture; nothing where it writes several, or another kind."""
    return number_of(pamtopam(file))[2]


def pixels_by_magick(file):
    """The size, in a line of its own, and the pixels after it."""
    said = ask([MAGICK, "PAM:-", "-format", "%w %h\\n", "-write", "INFO:-", "-depth", "8", "RGBA:-"], file)
    size, _, pixels = said.partition(b"\n")
    return Picture(*map(int, size.split()), pixels)


def stacked(picture):
    """pamstack takes files by name."""
    with tempfile.TemporaryDirectory() as folder:
        color, alpha = os.path.join(folder, "color"), os.path.join(folder, "alpha")
        for path, file in ((color, picture.ppm()), (alpha, picture.pgm(3))):
            with open(path, "wb") as to:
                to.write(file)
        return ask(["pamstack", "-quiet", "-tupletype=RGB_ALPHA", color, alpha], b"")


def command(text, given):
    """A way to write: the command, whose first word may be `magick`, over the file that `given` makes of a picture."""
    words = text.replace("magick", MAGICK).split()
    return lambda picture: ask([word.format(picture) for word in words], given(picture))


def raw(picture):
    return picture.pixels


def png(samples):
    return lambda picture: picture.png(samples)


def pam16(picture):
    return picture.pam(2)


def pgm(picture):
    return picture.pgm(0)


def same(picture):
    return picture


# Name, how the file is written, what it says of a picture.
WITHIN = [
    ("pngtopam -alphapam, of PNG with alpha", command("pngtopam -alphapam", png(4)), same),
    ("pngtopam -alphapam, of PNG without", command("pngtopam -alphapam", png(3)), Picture.opaque),
    ("pamtopam, of PAM in another order", command("pamtopam", Picture.pam), same),
    ("pamtopam, of PPM", command("pamtopam", Picture.ppm), Picture.opaque),
    ("pamflip -rotate180, of PAM", command("pamflip -rotate180", Picture.pam), Picture.turned),
    ("pamcut -left 0, of PAM", command("pamcut -left 0", Picture.pam), same),
    ("pamchannel -tupletype=RGB 0 1 2, of PAM", command("pamchannel -tupletype=RGB 0 1 2", Picture.pam), Picture.opaque),
    ("pamstack -tupletype=RGB_ALPHA, of PPM and PGM", stacked, same),
    ("pamdepth 255, of PAM with MAXVAL 65535", command("pamdepth -quiet 255", pam16), same),
    ("ImageMagick, of PNG with alpha", command("magick PNG:- PAM:-", png(4)), same),
    ("ImageMagick, of PNG without", command("magick PNG:- PAM:-", png(3)), Picture.opaque),
    ("ImageMagick, of PAM with a comment", command("magick PAM:- PAM:-", Picture.pam), same),
    ("ImageMagick, of PPM", command("magick PPM:- PAM:-", Picture.ppm), Picture.opaque),
    ("ImageMagick, of raw RGBA", command("magick -size {0.width}x{0.height} -depth 8 RGBA:- PAM:-", raw), same),
    ("ImageMagick -alpha off, of PNG with alpha", command("magick PNG:- -alpha off PAM:-", png(4)), Picture.opaque),
    ("ImageMagick -depth 8, of PAM with MAXVAL 65535", command("magick PAM:- -depth 8 PAM:-", pam16), same),
    ("ImageMagick -type TrueColorAlpha, of PGM", command("magick PGM:- -type TrueColorAlpha PAM:-", pgm), Picture.grey),
]

NO_MAGIC, OTHER_TUPLE = "a first line other than `P7`", "another tuple type"
OTHER_MAXVAL, NO_TUPLE = "MAXVAL other than 255", "no TUPLTYPE line"

# Name, how the file is written, and why it is outside the subset.
OUTSIDE = [
    ("pngtopam, of PNG", command("pngtopam", png(4)), NO_MAGIC),
    ("pamtopnm, of PAM", command("pamtopnm", Picture.pam), NO_MAGIC),
    ("pngtopam -alphapam, of grey PNG", command("pngtopam -alphapam", png(1)), OTHER_TUPLE),
    ("pamtopam, of PGM", command("pamtopam", pgm), OTHER_TUPLE),
    ("pamtopam, of PAM with MAXVAL 65535", command("pamtopam", pam16), OTHER_MAXVAL),
    ("pamdepth 15, of PAM", command("pamdepth -quiet 15", Picture.pam), OTHER_MAXVAL),
    ("pamchannel 0 1 2, of PAM", command("pamchannel 0 1 2", Picture.pam), NO_TUPLE),
    ("ImageMagick, of PGM", command("magick PGM:- PAM:-", pgm), OTHER_TUPLE),
    ("ImageMagick -depth 16, of PNG", command("magick PNG:- -depth 16 PAM:-", png(4)), OTHER_MAXVAL),
]
