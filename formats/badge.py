"""The archive's four calls, asked from Python through a shared library of the archive's own object code."""

import ctypes

from picture import Picture

RUBBISH = 0xA5
BYTES, LENGTH, NUMBER = ctypes.c_char_p, ctypes.c_size_t, ctypes.c_uint32
LENT, TO_NUMBER, TO_LENGTH = ctypes.POINTER(ctypes.c_uint8), ctypes.POINTER(NUMBER), ctypes.POINTER(ctypes.c_uint64)
CALLS = {
    "badge_pam_size": (BYTES, LENGTH, TO_NUMBER, TO_NUMBER),
    "badge_read_pam": (BYTES, LENGTH, LENT, LENGTH, TO_NUMBER, TO_NUMBER),
    "badge_pam_length": (NUMBER, NUMBER, TO_LENGTH),
    "badge_write_pam": (NUMBER, NUMBER, BYTES, LENGTH, LENT, LENGTH),
}


class Badge:
    """Each call answers with its number and what it gave, or with None where it refused and changed nothing."""

    def __init__(self, path):
        library = ctypes.CDLL(path)
        for name, arguments in CALLS.items():
            if not hasattr(library, name):
                raise SystemExit(f"the archive has no {name}")
            getattr(library, name).argtypes = arguments
            getattr(library, name).restype = NUMBER
        self.c = library

    def size(self, file):
        width, height = NUMBER(RUBBISH), NUMBER(RUBBISH)
        number = self.c.badge_pam_size(file, len(file), width, height)
        return answer(number, (width.value, height.value), (RUBBISH, RUBBISH))

    def read(self, file, room):
        """The picture, read into a buffer of `room` bytes."""
        width, height, pixels = NUMBER(RUBBISH), NUMBER(RUBBISH), bytearray([RUBBISH]) * room
        number = self.c.badge_read_pam(file, len(file), lent(pixels), room, width, height)
        picture = Picture(width.value, height.value, bytes(pixels))
        return answer(number, picture, (RUBBISH, RUBBISH, bytes([RUBBISH]) * room))

    def length(self, width, height):
        length = ctypes.c_uint64(RUBBISH)
        number = self.c.badge_pam_length(width, height, length)
        return answer(number, length.value, RUBBISH)

    def write(self, picture, room):
        """The file, written into a buffer of `room` bytes."""
        file = bytearray([RUBBISH]) * room
        number = self.c.badge_write_pam(*picture[:2], picture.pixels, len(picture.pixels), lent(file), room)
        return answer(number, bytes(file), bytes([RUBBISH]) * room)


def lent(buffer):
    return (ctypes.c_uint8 * len(buffer)).from_buffer(buffer)


def answer(number, given, before):
    """What a call answered with; a refusal that changed something is shown with what it left."""
    return (number, None if number != 0 and given == before else given)
