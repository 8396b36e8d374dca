"""The fields of a volume, as docs/VOLUME.md describes them.

`Fields` finds the fields of a sound volume: of both roots, of the map, of each page of the catalog and of all trees, or of the half in
use. Each field has a name, its place in the volume and its length."""
from collections import defaultdict, namedtuple

from power_cuts.volume import (HALVES, LISTING, PART, SECTOR, SHORT, TREES, Pages, half_of, map_count, number, prime_length,
                               read_description, read_root)

Field = namedtuple("Field", "at length")
ALTERNATES = 7
CATALOG_KEY = [("name", 30)]
DESCRIPTION = [("organization", 1), ("record length", 2), ("prime offset", 2), ("prime length", 2), ("alternate keys", 1)]
ALTERNATE = [("alternate offset", 2), ("alternate length", 2), ("duplicates", 1)]


def description_parts(count):
    """The parts of a file's description with so many alternate keys."""
    return DESCRIPTION + ALTERNATE * count + [("missing key", 5)] * (ALTERNATES - count)


def catalog_parts(count, is_counted):
    roots = [("alternate root", 4)] * count + [("missing root", 4)] * (ALTERNATES - count)
    return description_parts(count) + [("root of rows", 4)] + roots + [("next arrival", 8)] + [("rows", 8)] * is_counted


class FilePlaces(namedtuple("FilePlaces", "description rows alternates chains")):
    """A file: what it is, the places of its rows' keys and of their values, and of each alternate key the places of its entries' keys and
    values. By the place of a row's value, `chains` has the places of the parts of its record in the pages of its chain."""

    def byte_place(self, at, offset):
        """Where a byte is of the record of the row whose value is at this place."""
        if at in self.chains:
            return self.chains[at][offset // PART] + offset % PART
        return at + offset

    def arrivals_place(self, at):
        return at + (4 if at in self.chains else self.description.length)


class Fields:
    """`named` has the fields by their names, each with its place in the volume and its length."""

    def __init__(self, volume):
        self.volume, self.named, self.files = volume, defaultdict(list), []
        roots = {which: read_root(Sectors(volume), which) for which in (0, 1)}
        self.newest = max((which for which in roots if roots[which]), key=lambda which: roots[which].generation)
        self.root = roots[self.newest]
        self.is_counted = self.root.mark in TREES[1:]
        for which, root in roots.items():
            self.add_root(which, root)
        if self.root.mark in TREES:
            self.add_trees()
        else:
            self.add_half()

    def add(self, name, at, length):
        if length:
            self.named[name].append(Field(at, length))

    def add_parts(self, prefix, at, parts):
        """Adds adjacent parts, and returns the place after them."""
        for name, length in parts:
            self.add(f"{prefix}{name}", at, length)
            at += length
        return at

    # Roots

    def add_root(self, which, root):
        prefix = "root: " if which == self.newest else "older root: "
        parts = [("mark", 8), ("generation", 8), ("sectors", 4)]
        if root and root.mark in HALVES:
            parts.append(("bytes in use", 8))
        else:
            parts += [("catalog", 4), ("map sectors", 4)] + [("map sector", 4)] * map_count(self.root.sectors)
        end = self.add_parts(prefix, SECTOR * which, parts)
        self.add(f"{prefix}rest", end, SECTOR * (which + 1) - end)

    # Trees

    def add_trees(self):
        self.pages = Pages(Sectors(self.volume), self.root)
        self.maps = [number(self.root.payload, 8 + 4 * i, 4) for i in range(map_count(self.root.sectors))]
        self.add_map()
        catalog = number(self.root.payload, 0, 4)
        for _, value in self.add_tree("catalog: ", catalog, CATALOG_KEY, catalog_parts(0, self.is_counted)):
            self.add_file(value)

    def add_map(self):
        """Adds the entries of the map sectors: those of pages, and free ones."""
        entries = [(1024 * i + j, SECTOR * sector + 4 * j) for i, sector in enumerate(self.maps) if sector for j in range(1024)]
        for page, at in entries:
            self.add("map: page" if page in self.pages.sectors else "map: free page", at, 4)

    def add_file(self, at):
        """Adds the fields of a catalog entry whose value begins here, and of the file's trees."""
        value = self.volume.read(at, LISTING)
        description = read_description(value[:43], not self.is_counted)
        count = len(description.alternates)
        self.add_parts("catalog: ", at, catalog_parts(count, self.is_counted))
        key = [("key", prime_length(description))]
        is_long = description.length > SHORT
        record = ("first page", 4) if is_long else ("record", description.length)
        rows = self.add_tree("rows: ", number(value, 43, 4), key, [record] + [("arrival", 8)] * count)
        chains = {at: self.add_chain(self.volume.number(at, 4), description.length) for _, at in rows if is_long}
        alternates = []
        for i, alternate in enumerate(description.alternates):
            parts = [("value", alternate.length), ("arrival", 8)]
            alternates.append(self.add_tree("alternate: ", number(value, 47 + 4 * i, 4), parts, [("prime key", description.prime.length)]))
        self.files.append(FilePlaces(description, rows, alternates, chains))

    def add_tree(self, name, root, key, value):
        """Adds the pages of a tree. The places of its rows' keys and values."""
        return self.add_page(name, root, key, value) if root else []

    def add_page(self, name, page, key, value):
        at = SECTOR * self.pages.sectors[page]
        is_leaf = self.volume.number(at, 1) == 1
        prefix = name if is_leaf else f"{name}inner "
        rows = self.volume.number(at + 2, 2)
        self.add_parts(prefix, at, [("kind", 1), ("unnamed byte", 1), ("rows of a page", 2), ("unnamed bytes", 12)])
        key_length, value_length = (sum(length for _, length in parts) for parts in (key, value if is_leaf else [("child", 4)]))
        places = range(at + 16, at + 16 + rows * (key_length + value_length), key_length + value_length)
        self.add(f"{prefix}rest", places.stop, at + SECTOR - places.stop)
        return self.add_rows(prefix, places, key, value, is_leaf)

    def add_rows(self, prefix, places, key, value, is_leaf):
        found = []
        for place in places:
            middle = self.add_parts(prefix, place, key)
            if is_leaf:
                found.append((place, middle))
                self.add_parts(prefix, middle, value if prefix != "catalog: " else [])
            else:
                self.add(f"{prefix}child", middle, 4)
                found += self.add_page(prefix.removesuffix("inner "), self.volume.number(middle, 4), key, value)
        return found

    def add_chain(self, page, left):
        """Adds the pages of a record's chain, of which so many bytes are left. The places of its parts."""
        places = []
        while left > 0:
            at, length = SECTOR * self.pages.sectors[page], min(left, PART)
            places.append(at + 16)
            parts = [("kind", 1), ("unnamed bytes", 3), ("next page", 4), ("unnamed bytes", 8), ("record", length)]
            self.add_parts("chain: ", at, parts + [("rest", PART - length)])
            page, left = self.volume.number(at + 4, 4), left - length
        return places

    # Halves

    def add_half(self):
        first = 2 + self.root.generation % 2 * half_of(self.root.sectors)
        at = SECTOR * first
        end = at + number(self.root.payload, 0, 8)
        while at < end:
            at = self.add_half_file(at)
        if end < SECTOR * self.root.sectors:
            self.add("half: unused byte", end, 1)

    def add_half_file(self, at):
        description = read_description(self.volume.read(at + 30, 43), True)
        count = len(description.alternates)
        parts = CATALOG_KEY + description_parts(count) + [("zeros", 32), ("next arrival", 8), ("rows", 8)]
        at = self.add_parts("half: ", at, parts)
        row = [("key", prime_length(description)), ("record", description.length)] + [("arrival", 8)] * count
        rows = []
        for _ in range(self.volume.number(at - 8, 8)):
            rows.append((at, at + prime_length(description)))
            at = self.add_parts("half: ", at, row)
        self.files.append(FilePlaces(description, rows, [], {}))
        return at


class Sectors:
    """A volume as the reader of the format takes it."""

    def __init__(self, volume):
        self.volume, self.count = volume, volume.count

    def read_sector(self, sector):
        return self.volume.sector(sector)
