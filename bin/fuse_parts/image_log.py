"""The log beside an image: what it puts into the image, and how much room that wants there."""
import os, struct

UNIT = 4096  # bytes of each part of a log, and of what it puts into the image
NUMBERS = 1024  # of units, in a part


def records(read):
    """The numbers of the units that each record of a log puts, and at which part of the log the bytes of the first one stand, those of the
    others behind it. `read` gives the bytes of parts: from one on, so many. A record is a gate, a head, numbers, and units; its gate is open
    where it equals the head."""
    at, name = 0, read(0, 1)[:16]
    while (head := read(at + 1, 1)).startswith(b"MFSREDO1") and read(at, 1) == head and head[:16] == name:
        count, = struct.unpack_from(">I", head, 16)
        parts = -(-count // NUMBERS)
        yield struct.unpack_from(f">{count}I", read(at + 2, parts)), at + 2 + parts
        at += 2 + parts + count


def is_hole(file, unit):
    """Whether an open file has a hole at a unit, or ends before it."""
    try:
        return os.lseek(file, unit * UNIT, os.SEEK_DATA) >= (unit + 1) * UNIT
    except OSError:
        return True


def room_wanted(image):
    """How many bytes an image takes more on its disk once what its log asks for is put into it."""
    try:
        with open(f"{image}.redo", "rb") as log, open(image, "rb") as file:
            told = os.fstat(file.fileno())
            if told.st_blocks * 512 >= told.st_size:
                return 0
            read = lambda place, count: os.pread(log.fileno(), count * UNIT, place * UNIT)
            units = {number for numbers, _ in records(read) for number in numbers}
            return UNIT * sum(is_hole(file.fileno(), it) for it in units)
    except (OSError, struct.error):
        return 0
