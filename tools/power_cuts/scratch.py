"""A volume in a host file that is changed in place and put back, which is quicker than a copy for each change."""
import os

from power_cuts.volume import SECTOR

ZEROS = bytes(SECTOR)
# The time that a file has which nobody has written to since, in nanoseconds.
MARK = 0


def extents(file):
    """The parts of a file that aren't holes, each as its first byte and the byte after its last."""
    size, at = os.fstat(file).st_size, 0
    while at < size:
        try:
            start = os.lseek(file, at, os.SEEK_DATA)
        except OSError:
            return
        at = os.lseek(file, start, os.SEEK_HOLE)
        yield start, at


def sectors_of(file):
    """The sectors of a file that aren't zeros, by their numbers. The last one may be a part of a sector."""
    found = {sector: text for start, end in extents(file) for sector, text in sectors_between(file, start, end)}
    return {sector: text for sector, text in found.items() if has_bytes(text)}


def has_bytes(text):
    """Whether a sector, or a part of one, isn't zeros."""
    return text != ZEROS[:len(text)]


def sectors_between(file, start, end):
    first, last = start // SECTOR, (end + SECTOR - 1) // SECTOR
    text = os.pread(file, SECTOR * (last - first), SECTOR * first)
    return [(first + i, text[SECTOR * i:SECTOR * (i + 1)]) for i in range(last - first)]


class Scratch:
    """A copy of a volume. `sectors` and `length` are what the volume holds, `changed` what was written to the copy."""

    def __init__(self, volume, path):
        original = os.open(volume, os.O_RDONLY)
        self.sectors, self.length = sectors_of(original), os.fstat(original).st_size
        os.close(original)
        self.path, self.file = path, os.open(path, os.O_RDWR | os.O_CREAT, 0o600)
        self.build()

    def close(self):
        os.close(self.file)

    def build(self):
        """Writes the whole copy anew."""
        os.ftruncate(self.file, 0)
        os.ftruncate(self.file, self.length)
        for sector, text in self.sectors.items():
            os.pwrite(self.file, text, SECTOR * sector)
        self.changed, self.present_length = {}, self.length
        self.mark()

    def mark(self):
        """Gives the file a time that no later write leaves."""
        os.utime(self.file, ns=(MARK, MARK))

    @property
    def count(self):
        return self.present_length // SECTOR

    # Changes

    def sector(self, sector):
        return bytes(self.changed.get(sector) or self.sectors.get(sector, ZEROS))

    def put(self, sector, text):
        self.changed[sector] = bytearray(text)

    def read(self, at, length):
        sector, offset = divmod(at, SECTOR)
        text = self.sector(sector)[offset:offset + length]
        return text if len(text) == length or sector + 1 >= self.count else text + self.read(at + len(text), length - len(text))

    def write(self, at, text):
        sector, offset = divmod(at, SECTOR)
        here = text[:SECTOR - offset]
        if sector >= self.count:
            return
        page = self.changed.setdefault(sector, bytearray(self.sector(sector)))
        page[offset:offset + len(here)] = here
        if len(here) < len(text):
            self.write(at + len(here), text[len(here):])

    def number(self, at, length):
        return int.from_bytes(self.read(at, length), "big")

    def write_number(self, at, length, number):
        self.write(at, (number % 256 ** length).to_bytes(length, "big"))

    def set_length(self, length):
        self.present_length = length

    def flush(self):
        """The file gets the changes."""
        for sector, text in self.changed.items():
            os.pwrite(self.file, text, SECTOR * sector)
        os.ftruncate(self.file, self.present_length)
        self.mark()

    # What others may have done with it

    def is_unchanged(self):
        """Whether the file holds what was written here and nothing else. It does if it has its mark."""
        found = os.fstat(self.file)
        if found.st_size != self.present_length:
            return False
        if found.st_mtime_ns == MARK:
            return True
        self.mark()
        return sectors_of(self.file) == self.expected()

    def expected(self):
        sectors = {sector: bytes(text) for sector, text in {**self.sectors, **self.changed}.items()}
        shown = {sector: text[:max(0, self.present_length - SECTOR * sector)] for sector, text in sectors.items()}
        return {sector: text for sector, text in shown.items() if has_bytes(text)}

    def restore(self):
        """Takes the changes back, if nobody else changed the file."""
        if self.present_length != self.length:
            return self.build()
        for sector in self.changed:
            os.pwrite(self.file, self.sectors.get(sector, ZEROS), SECTOR * sector)
        self.changed = {}
        self.mark()
