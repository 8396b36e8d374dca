"""What file statements do to the files of a volume, by the rules of the language alone.

`Files` are the files of a volume. A `Connector` is a file of a program: it has the record area, the RELATIVE KEY item, and a method
for each file statement, which returns the status. `Files.now()` is the volume's content, as `volume.py` describes files."""
from collections import Counter

from power_cuts.volume import Row, StoredFile

MOST_NUMBER = 999_999_999


class ModelFile:
    """The rows of a file by their prime keys or numbers, how many rows have each value of each alternate key, and the number that
    the next change gives."""

    def __init__(self, description, rows=()):
        self.description, self.rows, self.next_arrival, self.content = description, {}, 1, None
        self.counts = [Counter() for _ in description.alternates]
        for row in rows:
            self.put(row)
            self.next_arrival = max([self.next_arrival, *(number + 1 for number in row.arrivals)])
        if rows and description.kind == "sequential":
            self.next_arrival = rows[-1].prime + 1

    def arrive(self):
        self.next_arrival += 1
        return self.next_arrival - 1

    def value(self, key, row):
        """The value of a key in a row; the key None is the prime key."""
        return row.prime if key is None else self.description.alternates[key].of(row.record)

    def place(self, key, row):
        """The place of a row in the order of a key."""
        return (row.prime,) if key is None else (self.value(key, row), row.arrivals[key])

    def ordered(self, key):
        return sorted(self.rows.values(), key=lambda row: self.place(key, row))

    def put(self, row):
        self.drop(row.prime)
        self.rows[row.prime] = row
        self.count(row, 1)

    def drop(self, prime):
        self.content = None
        if prime in self.rows:
            self.count(self.rows.pop(prime), -1)

    def count(self, row, by):
        for key, counts in zip(self.description.alternates, self.counts):
            counts[key.of(row.record)] += by


class Files:
    """The files of a volume by their names."""

    def __init__(self):
        self.files, self.open_names = {}, set()

    @staticmethod
    def of(content):
        """The model of files with this content."""
        model = Files()
        for stored in content:
            model.files[stored.name] = ModelFile(stored.description, stored.rows)
        return model

    def now(self):
        """The present content: the files with their rows, by ascending name."""
        return tuple(self.content(name) for name in sorted(self.files))

    def content(self, name):
        file = self.files[name]
        if file.content is None:
            rows = tuple(file.rows[prime] for prime in sorted(file.rows))
            file.content = StoredFile(name, file.description, rows)
        return file.content


class Connector:
    """A file of a program. `digits` is how many the RELATIVE KEY item has, or None without one."""

    def __init__(self, files, name, description, access="sequential", optional=False, digits=None):
        self.files, self.name, self.description = files, name, description
        self.access, self.optional, self.digits = access, optional, digits
        self.mode, self.is_absent, self.position, self.reference = None, False, None, None
        self.just_read, self.last_written = None, None
        self.area, self.number = bytearray(b" " * description.length), 0

    @property
    def file(self):
        return ModelFile(self.description) if self.is_absent else self.files.files[self.name]

    def move(self, key, text):
        """Moves bytes to a part of the record area, cut or padded with spaces."""
        self.area[key.offset:key.offset + key.length] = text[:key.length].ljust(key.length)

    def do(self, verb, *words):
        """Does a file statement and returns its status."""
        read, self.just_read = self.just_read, None
        if verb in ("rewrite", "delete"):
            words = (read,)
        return getattr(self, verb)(*words)

    # OPEN and CLOSE

    def open(self, mode):
        if self.mode or self.name in self.files.open_names:
            return "41"
        status = self.find_file(mode)
        if status[0] == "0":
            self.mode, self.position, self.reference, self.last_written = mode, ("from", None), None, None
            self.files.open_names.add(self.name)
        return status

    def find_file(self, mode):
        self.is_absent = False
        there = self.files.files.get(self.name)
        if mode == "OUTPUT":
            self.files.files[self.name] = ModelFile(self.description)
            return "00"
        if there is None and self.optional:
            self.is_absent = mode == "INPUT"
            if mode != "INPUT":
                self.files.files[self.name] = ModelFile(self.description)
            return "05"
        if there is None:
            return "35"
        return "00" if there.description == self.description else "39"

    def close(self):
        if not self.mode:
            return "42"
        self.mode, self.is_absent = None, False
        self.files.open_names.discard(self.name)
        return "00"

    # READ and START

    def read_next(self):
        if self.mode not in ("INPUT", "I-O"):
            return "47"
        if self.position is None:
            return "46"
        rows = [row for row in self.file.ordered(self.reference) if self.is_ahead(row)]
        self.position = None
        if not rows:
            return "10"
        if self.digits and len(str(rows[0].prime)) > self.digits:
            return "14"
        if self.digits:
            self.number = rows[0].prime
        return self.take(rows)

    def is_ahead(self, row):
        where, place = self.position
        here = self.file.place(self.reference, row)
        return place is None or here > place or where == "from" and here == place

    def read_key(self, key=None):
        if self.mode not in ("INPUT", "I-O"):
            return "47"
        self.reference, self.position = key, None
        value = self.named_row() if key is None else bytes(self.description.alternates[key].of(self.area))
        rows = self.file.ordered(key)
        while rows and self.file.value(key, rows[0]) != value:
            del rows[0]
        return self.take(rows) if rows else "23"

    def take(self, rows):
        """The first of these rows goes into the record area."""
        file, row = self.file, rows[0]
        self.area[:] = row.record
        self.just_read, self.position = row.prime, ("after", file.place(self.reference, row))
        is_shared = len(rows) > 1 and file.value(self.reference, rows[1]) == file.value(self.reference, row)
        return "02" if is_shared else "00"

    def start(self, relation, key=None, length=None):
        """`length` is how many bytes of the key are compared, or None for all."""
        if self.mode not in ("INPUT", "I-O"):
            return "47"
        self.reference, self.position = key, None
        value = self.named_row() if key is None else bytes(self.description.alternates[key].of(self.area))
        cut = (lambda it: it[:length]) if length else (lambda it: it)
        value = cut(value)
        for row in self.file.ordered(key):
            other = cut(self.file.value(key, row))
            if {"=": other == value, ">": other > value, ">=": other >= value}[relation]:
                self.position = ("from", self.file.place(key, row))
                return "00"
        return "23"

    def named_row(self):
        """The prime key or number that the program names."""
        return bytes(self.description.prime.of(self.area)) if self.description.kind == "indexed" else self.number

    # WRITE, REWRITE and DELETE

    def write(self):
        at_end = self.description.kind == "sequential" or self.access == "sequential"
        modes = ("OUTPUT", "EXTEND") if at_end else ("OUTPUT", "I-O")
        if self.mode not in modes:
            return "48"
        status, prime = {"sequential": self.next_row, "relative": self.next_number, "indexed": self.next_key}[self.description.kind]()
        if status != "00":
            return status
        file, record = self.file, bytes(self.area)
        is_shared = any(self.shares(i, record, None) for i in range(len(self.description.alternates)))
        arrival = file.arrive()
        file.put(Row(prime, record, (arrival,) * len(self.description.alternates)))
        self.last_written = prime
        return "02" if is_shared else "00"

    def next_row(self):
        return "00", self.file.next_arrival

    def next_number(self):
        number = (self.last_written or 0) + 1 if self.access == "sequential" else self.number
        is_long = self.access == "sequential" and self.digits and len(str(number)) > self.digits
        if not 1 <= number <= MOST_NUMBER or is_long:
            return "24", None
        if number in self.file.rows:
            return "22", None
        self.number = number if self.digits else 0
        return "00", number

    def next_key(self):
        prime = self.named_row()
        if self.access == "sequential" and self.last_written is not None and prime <= self.last_written:
            return "21", None
        is_there = prime in self.file.rows or self.breaks_unique(bytes(self.area), None)
        return ("22" if is_there else "00"), prime

    def shares(self, i, record, but):
        """Whether a row other than `but` has the value of an alternate key that this record has."""
        key, file = self.description.alternates[i], self.file
        own = but is not None and key.of(file.rows[but].record) == key.of(record)
        return file.counts[i][key.of(record)] > own

    def breaks_unique(self, record, but):
        keys = enumerate(self.description.alternates)
        return any(not key.duplicates and self.shares(i, record, but) for i, key in keys)

    def rewrite(self, read):
        status, prime = self.changed_row(read)
        if status == "00" and self.access == "sequential" and self.description.kind == "indexed" and self.named_row() != prime:
            status = "21"
        if status == "00" and prime not in self.file.rows:
            status = "23"
        record = bytes(self.area)
        if status == "00" and self.breaks_unique(record, prime):
            status = "22"
        return self.replace(prime, record) if status == "00" else status

    def replace(self, prime, record):
        file, keys = self.file, self.description.alternates
        old = file.rows[prime]
        changed = [i for i, key in enumerate(keys) if key.of(old.record) != key.of(record)]
        is_shared = any(self.shares(i, record, prime) for i in changed)
        arrival = file.arrive() if changed else None
        file.put(Row(prime, record, tuple(arrival if i in changed else one for i, one in enumerate(old.arrivals))))
        return "02" if is_shared else "00"

    def delete(self, read):
        status, prime = self.changed_row(read)
        if status == "00" and prime not in self.file.rows:
            status = "23"
        if status == "00":
            self.file.drop(prime)
        return status

    def changed_row(self, read):
        """The row that REWRITE and DELETE name."""
        if self.mode != "I-O":
            return "49", None
        if self.access == "sequential":
            return ("43" if read is None else "00"), read
        return "00", self.named_row()
