"""The files of a volume, read from the bytes by the description of the format alone.

A volume is a row of sectors of 4,096 bytes; numbers are big-endian. Sectors 0 and 1 are roots, and the newest valid root says where
everything is: in trees of pages (marks COBVOL01 and COBVOL02) or in one of two halves (mark COBHALF1). `read_files` follows every byte that the
roots lead to and checks every rule of the format. A volume that breaks a rule is `Damaged`."""
import struct
from dataclasses import dataclass
from functools import cached_property
from typing import NamedTuple

SECTOR = 4096
# The marks of each layout, in the order in which they came up.
TREES, HALVES = [b"COBVOL01", b"COBVOL02"], [b"COBHALF1"]
# How many bytes a value of the catalog has without the number of rows, which the second mark of trees adds.
LISTING = 83
SHORT, LONGEST = 1000, 16000  # the bytes of a record that is in a tree, and of any record
PART = 4080  # the bytes of a record in a page of its chain
KINDS = ["sequential", "relative", "indexed"]
MOST_FILES = 255
MOST_SECTORS = 921_600
MOST_LEVELS = 21


class Damaged(Exception):
    """The bytes hold no files."""


@dataclass(frozen=True)
class Key:
    """Where a key is in a record, and whether several rows may have one value of it."""
    offset: int
    length: int
    duplicates: bool = False

    def of(self, record):
        return record[self.offset:self.offset + self.length]


@dataclass(frozen=True)
class Description:
    """What a file is."""
    kind: str
    length: int
    prime: Key = None
    alternates: tuple = ()


class Row(NamedTuple):
    """A row: its prime key or number, its record, and when it came to its value of each alternate key."""
    prime: object
    record: bytes
    arrivals: tuple = ()


@dataclass
class StoredFile:
    name: bytes
    description: Description
    rows: tuple

    @cached_property
    def dump(self):
        """What `dump` prints of it."""
        return b"".join(printed(row.record) + b"\n" for row in self.rows)


@dataclass(frozen=True)
class Root:
    mark: bytes
    generation: int
    sectors: int
    payload: bytes


def need(holds):
    if not holds:
        raise Damaged


def number(text, start, length):
    return int.from_bytes(text[start:start + length], "big")


def ascends(values):
    return all(one < two for one, two in zip(values, values[1:]))


# Roots

def read_files(volume):
    """The files in an open file, by ascending name. `volume` has `read_sector(n)` and `count`."""
    newest = newest_root(volume)
    files = read_trees(volume, newest) if newest.mark in TREES else read_half(volume, newest)
    need(len(files) <= MOST_FILES and ascends([file.name for file in files]))
    return files


def newest_root(volume):
    """The root that counts."""
    need(volume.count >= 2)
    roots = [root for root in (read_root(volume, which) for which in (0, 1)) if root]
    need(roots)
    if len(roots) == 2:
        need(abs(roots[0].generation - roots[1].generation) == 1)
        need(follows(*sorted(roots, key=lambda root: root.generation)))
    return max(roots, key=lambda root: root.generation)


def follows(older, newer):
    """Whether two roots have one number of sectors, and marks of one layout, of which the newer root's isn't the earlier one."""
    marks = TREES if newer.mark in TREES else HALVES
    return older.sectors == newer.sectors and older.mark in marks[:marks.index(newer.mark) + 1]


def is_openable(volume):
    """Whether the roots and the map are sound, or all of a volume of halves."""
    try:
        root = newest_root(volume)
        if root.mark in TREES:
            Pages(volume, root)
        else:
            read_files(volume)
    except Damaged:
        return False
    return True


def read_root(volume, which):
    """The root in sector 0 or 1, or None for a sector of zeros."""
    sector = volume.read_sector(which)
    if not any(sector):
        return None
    root = Root(sector[:8], number(sector, 8, 8), number(sector, 16, 4), sector[20:])
    need(root.mark in TREES + HALVES)
    need(root.generation < 2**63 and root.generation % 2 == which)
    need(1024 <= root.sectors <= min(MOST_SECTORS, volume.count))
    if root.mark in TREES:
        maps = number(root.payload, 4, 4)
        need(maps == map_count(root.sectors) and not any(root.payload[8 + 4 * maps:]))
    else:
        need(number(root.payload, 0, 8) <= SECTOR * half_of(root.sectors) and not any(root.payload[8:]))
    return root


def map_count(sectors):
    return (sectors + 1023) // 1024


# Trees of pages

class Pages:
    """The pages that a root names, each by its logical number, and which of them were reached."""

    def __init__(self, volume, root):
        self.volume, self.sectors, self.reached = volume, {}, set()
        maps = [number(root.payload, 8 + 4 * i, 4) for i in range(map_count(root.sectors))]
        for i, sector in enumerate(maps):
            if sector:
                need(2 <= sector < root.sectors)
                self.read_map(i, volume.read_sector(sector))
        self.named = [sector for sector in maps if sector] + list(self.sectors.values())
        need(all(2 <= sector < root.sectors for sector in self.named))
        need(len(set(self.named)) == len(self.named) and 0 not in self.sectors)

    def read_map(self, i, entries):
        for j, sector in enumerate(struct.unpack(">1024I", entries)):
            if sector:
                self.sectors[1024 * i + j] = sector

    def read(self, page):
        """A page, which no tree has reached so far."""
        need(page in self.sectors and page not in self.reached)
        self.reached.add(page)
        return self.volume.read_sector(self.sectors[page])


def read_trees(volume, root):
    pages = Pages(volume, root)
    is_counted = root.mark != TREES[0]
    catalog = read_tree(pages, number(root.payload, 0, 4), 30, LISTING + 8 * is_counted)
    files = [read_file(pages, root.generation, name, value, not is_counted) for name, value in catalog]
    need(not is_counted or [number(value, LISTING, 8) for _, value in catalog] == [len(file.rows) for file in files])
    need(reaches_all(pages))
    return files


def free_sectors(volume):
    """How many sectors of a volume of trees its newest root doesn't use: it names neither them nor a map that names them. None for halves."""
    root = newest_root(volume)
    return root.sectors - 2 - len(Pages(volume, root).named) if root.mark in TREES else None


def reaches_all(pages):
    return pages.reached == set(pages.sectors)


def read_tree(pages, root, key_length, value_length):
    """The entries of a tree, as pairs of key and value."""
    if root == 0:
        return []
    entries, _ = read_node(pages, root, key_length, value_length, MOST_LEVELS)
    need(ascends([key for key, _ in entries]))
    return entries


def read_node(pages, page, key_length, value_length, levels):
    """The entries under a page, and its height: 0 for a leaf. No more than so many levels may follow."""
    need(levels)
    text = pages.read(page)
    kind, count = text[0], number(text, 2, 2)
    need(kind in (1, 2))
    rest = value_length if kind == 1 else 4
    length = key_length + rest
    need(count >= kind and 16 + count * length <= SECTOR)
    starts = range(16, 16 + count * length, length)
    rows = [(text[at:at + key_length], text[at + key_length:at + length]) for at in starts]
    if kind == 1:
        return rows, 0
    entries, heights = [], set()
    for least, child in rows:
        below, height = read_node(pages, number(child, 0, 4), key_length, value_length, levels - 1)
        need(below[0][0] == least)
        entries += below
        heights.add(height)
    need(len(heights) == 1)
    return entries, heights.pop() + 1


def read_chain(pages, page, length):
    """The bytes of a record of this length, of the chain that begins at a page."""
    parts = []
    for _ in range(-(-length // PART)):
        text = pages.read(page)
        need(text[0] == 3)
        parts.append(text[16:])
        page = number(text, 4, 4)
    need(page == 0)
    return b"".join(parts)[:length]


def read_value(pages, description, value):
    """The record and the arrivals of a value of the tree of rows."""
    if description.length <= SHORT:
        return value
    return read_chain(pages, number(value, 0, 4), description.length) + value[4:]


def read_file(pages, generation, padded, value, is_short):
    """A file and its trees, of an entry of the catalog. With the earlier mark no record is long."""
    name, description = read_name(padded), read_description(value[:43], is_short)
    roots = [number(value, 47 + 4 * i, 4) for i in range(7)]
    arrival = number(value, 75, 8)
    count = len(description.alternates)
    need(1 <= arrival <= generation and not any(roots[count:]))
    kept = description.length if description.length <= SHORT else 4
    entries = read_tree(pages, number(value, 43, 4), prime_length(description), kept + 8 * count)
    rows = tuple(read_row(description, arrival, key, read_value(pages, description, row)) for key, row in entries)
    for i, key in enumerate(description.alternates):
        found = read_tree(pages, roots[i], key.length + 8, description.prime.length)
        need(is_index(found, key, i, rows))
    return StoredFile(name, description, rows)


def read_name(padded):
    name = padded.rstrip(b"\0")
    need(name and 0 not in name)
    return name


def prime_length(description):
    return {"sequential": 8, "relative": 4}.get(description.kind) or description.prime.length


def read_description(text, is_short):
    """What a file is, from the 43 bytes that say so. Only a volume of trees with the later mark has records that aren't short."""
    need(text[0] < 3)
    kind, length, count = KINDS[text[0]], number(text, 1, 2), text[7]
    prime = Key(number(text, 3, 2), number(text, 5, 2))
    need(1 <= length <= (SHORT if is_short else LONGEST) and count <= 7 and not any(text[8 + 5 * count:]))
    if kind != "indexed":
        need(count == 0 and not any(text[3:7]))
        return Description(kind, length)
    alternates = tuple(read_alternate(text[8 + 5 * i:]) for i in range(count))
    for key in (prime, *alternates):
        need(1 <= key.length <= 100 and key.offset + key.length <= length)
    offsets = [key.offset for key in alternates]
    need(ascends(offsets) and prime.offset not in offsets)
    return Description(kind, length, prime, alternates)


def read_alternate(text):
    need(text[4] < 2)
    return Key(number(text, 0, 2), number(text, 2, 2), text[4] == 1)


def read_row(description, arrival, key, value):
    """A row of its key and the value beside it, both as they are in the tree of rows."""
    record = value[:description.length]
    arrivals = tuple(number(value, at, 8) for at in range(description.length, len(value), 8))
    need(all(1 <= one < arrival for one in arrivals))
    if description.kind == "indexed":
        need(description.prime.of(record) == key)
        return Row(key, record, arrivals)
    prime = number(key, 0, len(key))
    need(1 <= prime <= 999_999_999 if description.kind == "relative" else 1 <= prime < arrival)
    return Row(prime, record, arrivals)


def is_index(entries, key, i, rows):
    """Whether the tree of an alternate key has exactly the entries of these rows."""
    return entries == sorted((key.of(row.record) + row.arrivals[i].to_bytes(8, "big"), row.prime) for row in rows)


# Halves

def half_of(sectors):
    return (sectors - 2) // 2


def read_half(volume, root):
    length, first = number(root.payload, 0, 8), 2 + root.generation % 2 * half_of(root.sectors)
    count = (length + SECTOR - 1) // SECTOR
    text = b"".join(volume.read_sector(first + i) for i in range(count))[:length]
    files, at = [], 0
    while at < length:
        file, at = read_half_file(text, at, root.generation)
        files.append(file)
    return files


def read_half_file(text, at, generation):
    """The file that begins at a place of a half, and where the next one begins."""
    need(at + 121 <= len(text))
    name, description = read_name(text[at:at + 30]), read_description(text[at + 30:at + 73], True)
    arrival, count = number(text, at + 105, 8), number(text, at + 113, 8)
    need(not any(text[at + 73:at + 105]) and 1 <= arrival <= generation)
    key_length = prime_length(description)
    length = key_length + description.length + 8 * len(description.alternates)
    at += 121
    need(count <= (len(text) - at) // length)
    starts = range(at, at + count * length, length)
    rows = tuple(read_row(description, arrival, text[it:it + key_length], text[it + key_length:it + length]) for it in starts)
    need(ascends([row.prime for row in rows]))
    return StoredFile(name, description, rows), at + count * length


# Volumes as host files, and what the commands print of them

class HostFile:
    """An open host file as sectors."""

    def __init__(self, file):
        self.file = file
        self.count = min(file.seek(0, 2) // SECTOR, 2**32 - 1)

    def read_sector(self, sector):
        self.file.seek(SECTOR * sector)
        return self.file.read(SECTOR)


def read_volume(path, read=read_files):
    """What `read` finds in a host file: the files, or the number of free sectors."""
    with open(path, "rb") as file:
        return read(HostFile(file))


def printed(text):
    """Bytes as the commands print them."""
    return text if not text.translate(None, PLAIN) else b"".join(PRINTED[byte] for byte in text)


PLAIN = bytes(byte for byte in range(0x20, 0x7F) if byte != 0x5C)
PRINTED = [bytes([byte]) if byte in PLAIN else b"\\\\" if byte == 0x5C else b"\\x%02x" % byte for byte in range(256)]


def listing(files):
    """What `list` prints."""
    return b"".join(b"%s %s %d %d\n" % (printed(file.name), file.description.kind.encode(), file.description.length, len(file.rows))
                    for file in files)
