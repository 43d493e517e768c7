"""Pictures, and the files of them that the tools are given. None of these is made by the library or by a tool."""

import array
import random
import struct
import zlib
from typing import NamedTuple


class Picture(NamedTuple):
    """A size, and four bytes a pixel: red, green, blue, alpha."""

    width: int
    height: int
    pixels: bytes

    def planes(self, places):
        """The samples at these places of each pixel, pixel by pixel."""
        out = bytearray(len(places) * self.width * self.height)
        for to, place in enumerate(places):
            out[to :: len(places)] = self.pixels[place::4]
        return bytes(out)

    def opaque(self):
        """What a file with DEPTH 3 says of this picture: alpha is 255."""
        pixels = bytearray(self.pixels)
        pixels[3::4] = b"\xff" * (self.width * self.height)
        return self._replace(pixels=bytes(pixels))

    def grey(self):
        """The red samples as a grey picture."""
        return self._replace(pixels=self.planes((0, 0, 0, 3))).opaque()

    def turned(self):
        """The picture upside down."""
        return self._replace(pixels=array.array("I", self.pixels)[::-1].tobytes())

    def ppm(self):
        return b"P6\n%d %d\n255\n" % self[:2] + self.planes((0, 1, 2))

    def pgm(self, place):
        return b"P5\n%d %d\n255\n" % self[:2] + self.planes((place,))

    def pam(self, bytes_a_sample=1):
        """A PAM file in another order than the writer's. Two equal bytes say the same of 65535 as one of them of 255."""
        lines = b"P7\n# a comment\nTUPLTYPE RGB_ALPHA\nMAXVAL %d\nDEPTH 4\nHEIGHT %d\n\nWIDTH %d\nENDHDR\n"
        raster = bytearray(bytes_a_sample * len(self.pixels))
        for byte in range(bytes_a_sample):
            raster[byte::bytes_a_sample] = self.pixels
        return lines % (256**bytes_a_sample - 1, self.height, self.width) + raster

    def png(self, samples):
        """A PNG file: of four samples a pixel, of three, or of red alone as grey."""

        def chunk(name, body):
            return struct.pack(">I", len(body)) + name + body + struct.pack(">I", zlib.crc32(name + body))

        flat = self.planes(range(samples))
        row = samples * self.width
        rows = b"".join(b"\0" + flat[at : at + row] for at in range(0, len(flat), row))
        head = struct.pack(">IIBBBBB", *self[:2], 8, {1: 0, 3: 2, 4: 6}[samples], 0, 0, 0)
        return b"\x89PNG\r\n\x1a\n" + chunk(b"IHDR", head) + chunk(b"IDAT", zlib.compress(rows, 1)) + chunk(b"IEND", b"")


def repeated(piece, length):
    return (piece * (length // len(piece) + 1))[:length]


def gradient(width, height):
    """Colours that run along both sides, and every alpha that fits."""
    across = bytes(255 * x // max(width - 1, 1) for x in range(width))
    out = bytearray(4 * width * height)
    out[0::4] = across * height
    out[1::4] = b"".join(bytes([255 * y // max(height - 1, 1)]) * width for y in range(height))
    out[2::4] = across[::-1] * height
    out[3::4] = repeated(bytes(range(256)), width * height)
    return bytes(out)


# What a picture can hold, by name: a function of its width, its height and a source of noise.
CONTENTS = {
    "noise": lambda w, h, rng: rng.randbytes(4 * w * h),
    "gradient": lambda w, h, rng: gradient(w, h),
    "a newline first": lambda w, h, rng: repeated(b"\n#P7\n", 4 * w * h),
    "a header as pixels": lambda w, h, rng: repeated(b"#\nENDHDR\nP7\nWIDTH 1\nHEIGHT 1\n#P \t", 4 * w * h),
    "every alpha over one colour": lambda w, h, rng: b"".join(bytes([10, 35, 80, a % 256]) for a in range(w * h)),
    "greys": lambda w, h, rng: b"".join(bytes([v, v, v, rng.randrange(256)]) for v in rng.randbytes(w * h)),
    "black, white and alpha 0 or 255": lambda w, h, rng: bytes(rng.choices(b"\x00\xff", k=4 * w * h)),
    "zeros": lambda w, h, rng: bytes(4 * w * h),
}

LONG = (2, 3, 7, 10, 35, 80, 255, 256, 257, 1000, 4095, 4096)
SMALL = [(1, 1)] + [(1, n) for n in LONG] + [(n, 1) for n in LONG] + [(3, 5), (7, 11), (13, 17), (31, 33), (127, 129)]
LARGE = [(128, 128), (4096, 17), (1024, 1024), (4096, 256), (256, 4096), (1023, 1025)]


def pictures(seed, small=SMALL, large=LARGE, random_sizes=60):
    """(Name, picture), many: small sizes with each content, large ones with the first two, random ones up to 64 by 64."""
    rng = random.Random(seed)
    wanted = [(size, name) for size in small for name in CONTENTS]
    wanted += [(size, name) for size in large for name in list(CONTENTS)[:2]]
    for _ in range(random_sizes):
        wanted.append(((rng.randint(1, 64), rng.randint(1, 64)), rng.choice(list(CONTENTS))))
    for (width, height), name in wanted:
        yield f"{width}x{height}, {name}", Picture(width, height, CONTENTS[name](width, height, rng))
