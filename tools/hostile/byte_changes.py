"""Changes of a volume at places that are chosen at random: bytes, numbers, sectors, and entries of lengths that its trees may have.

They hit all parts that a reader follows: roots, map sectors, pages of trees and their entries, and the length of the file."""
from power_cuts.volume import SECTOR, prime_length


def entry_lengths(content):
    """How long entries of the volume's trees are, in leaves and in inner pages."""
    lengths = {30 + 83, 30 + 91, 30 + 4}
    for description in [file.description for file in content]:
        prime = prime_length(description)
        lengths |= {prime + description.length + 8 * len(description.alternates), prime + 4}
        lengths |= {key.length + 8 + more for key in description.alternates for more in (prime, 4)}
    return sorted(lengths)


class ByteChange:
    """One to three changes of a scratch copy of a volume."""

    def __init__(self, random, volume, lengths):
        self.random, self.volume, self.lengths, self.made = random, volume, lengths, []
        self.count, self.used = volume.length // SECTOR, sorted(volume.sectors)

    def sector(self, sector):
        return self.volume.sector(sector)

    def make(self, names=()):
        """Makes changes in the file, of the kinds with these names or of all, and says which."""
        kinds = [getattr(self, name) for name in names] or self.all_kinds()
        chosen = [self.random.choice(kinds) for _ in range(self.random.choice([1, 1, 1, 2, 3]))]
        for kind in sorted(chosen, key=lambda kind: kind == self.change_length):
            self.made.append(kind())
        self.volume.flush()
        return "changed: " + "; ".join(self.made)

    def all_kinds(self):
        kinds = [self.change_byte] * 4 + [self.change_number] * 6 + [self.change_root] * 3 + [self.swap, self.copy, self.blank]
        kinds += [self.change_map] * 3 + [self.swap_entries] * 5 + [self.change_count] * 3 + [self.change_entry] * 5
        return kinds + [self.change_kind, self.change_length, self.change_unnamed]

    def any_used(self):
        """A sector that isn't zeros; a root or an early one oftener than its share."""
        return self.random.choice(self.used[:2] + [self.random.choice(self.used), self.random.choice(self.used[:8])])

    def add_to_byte(self, at, more):
        self.volume.write_number(at, 1, self.volume.number(at, 1) + more)

    def change_byte(self):
        sector = self.any_used()
        at = SECTOR * sector + self.random.choice([self.random.randrange(SECTOR), self.random.randrange(64), self.random.randrange(400)])
        self.add_to_byte(at, self.random.choice([1, 255, self.random.randrange(1, 256)]))
        return f"byte {at % SECTOR} of sector {sector}"

    def change_number(self):
        """A number of four bytes becomes a neighbour, a small one, or one of another place."""
        sector, length = self.any_used(), self.random.choice([1, 2, 4, 8])
        text = self.sector(sector)
        places = [at for at in range(0, SECTOR - 8, 4) if any(text[at:at + 4])]
        at = SECTOR * sector + (self.random.choice(places) if places and self.random.random() < 0.8 else self.random.randrange(0, 100, 4))
        old = self.volume.number(at, length)
        new = self.random.choice([old + 1, old - 1, old + 2, 0, 1, 2, self.random.choice(self.used), self.count, self.count - 1])
        self.volume.write_number(at, length, new)
        return f"number at {at % SECTOR} of sector {sector}: {old} becomes {new}"

    def change_root(self):
        sector = self.random.choice([0, 1])
        at, length = self.random.choice([(0, 8), (8, 8), (16, 4), (20, 4), (24, 4), (28, 4), (32, 4), (4092, 4)])
        old = self.volume.number(SECTOR * sector + at, length)
        half = int.from_bytes(b"COBHALF1", "big")
        new = self.random.choice([old + 1, old - 1, old + 2, old - 2, 0, half if at == 0 else 1, 2**63 + old % 2])
        self.volume.write_number(SECTOR * sector + at, length, new)
        return f"root {sector}, number at {at}: {old} becomes {new}"

    def change_map(self):
        """The sector of a page becomes another one, or none, or a page that wasn't used gets one."""
        root = max((self.sector(which) for which in (0, 1)), key=lambda sector: sector[8:16])
        sector = int.from_bytes(root[28:32], "big") % self.count
        text = self.sector(sector)
        entries = [at for at in range(0, SECTOR, 4) if any(text[at:at + 4])]
        at = self.random.choice(entries[:40] + [4 * self.random.randrange(1024)])
        unused = next((it for it in range(self.count - 1, 1, -1) if it not in self.used), 2)
        new = self.random.choice([0, unused, unused, self.random.choice(self.used), 1, self.count])
        self.volume.write_number(SECTOR * sector + at, 4, new)
        return f"page {at // 4} in map sector {sector} is in sector {new}"

    def swap(self):
        one, two = self.any_used(), self.any_used()
        first, second = self.sector(one), self.sector(two)
        self.volume.put(one, second)
        self.volume.put(two, first)
        return f"sectors {one} and {two} change places"

    def copy(self):
        one, two = self.any_used(), self.any_used()
        self.volume.put(two, self.sector(one))
        return f"sector {two} becomes a copy of sector {one}"

    def blank(self):
        sector = self.any_used()
        self.volume.put(sector, bytes(SECTOR))
        return f"sector {sector} becomes zeros"

    def page(self):
        """A sector that may be a page of a tree, the length that its entries may have, and how many it says it has."""
        pages = [sector for sector in self.used[2:] if self.sector(sector)[0] in (1, 2)] or self.used
        sector, length = self.random.choice(pages), self.random.choice(self.lengths)
        count = int.from_bytes(self.sector(sector)[2:4], "big")
        return sector, length, max(1, min(count, 4080 // length))

    def swap_entries(self):
        """Two entries of a page change places."""
        sector, length, count = self.page()
        one, two = (SECTOR * sector + 16 + length * self.random.randrange(count) for _ in range(2))
        first, second = self.volume.read(one, length), self.volume.read(two, length)
        self.volume.write(one, second)
        self.volume.write(two, first)
        return f"page in sector {sector}: entries of {length} bytes at {one % SECTOR} and {two % SECTOR} change places"

    def change_entry(self):
        """A byte of an entry changes, mostly near its beginning or its end, where keys, arrivals and pages are."""
        sector, length, count = self.page()
        near = self.random.choice([0, length - 1, length - 5, length - 9, self.random.randrange(length)])
        at = SECTOR * sector + 16 + length * self.random.randrange(count) + near % length
        self.add_to_byte(at, self.random.choice([1, 255, 2, 128]))
        return f"byte {at % SECTOR} of sector {sector}, in an entry of {length} bytes"

    def change_count(self):
        """A page has an entry more or less."""
        sector, _, _ = self.page()
        count = self.volume.number(SECTOR * sector + 2, 2) + self.random.choice([1, -1, 2])
        self.volume.write_number(SECTOR * sector + 2, 2, count)
        return f"page in sector {sector} has {count % 65536} entries"

    def change_kind(self):
        sector, kind = self.any_used(), self.random.choice([0, 1, 2, 3])
        self.volume.write_number(SECTOR * sector, 1, kind)
        return f"the first byte of sector {sector} becomes {kind}"

    def change_unnamed(self):
        """A byte that the format doesn't name."""
        sector = self.any_used()
        at = self.random.choice([1, self.random.randrange(4, 16), self.random.randrange(3900, SECTOR)])
        self.volume.write_number(SECTOR * sector + at, 1, self.volume.number(SECTOR * sector + at, 1) ^ 1)
        return f"byte {at} of sector {sector}, which a page doesn't name"

    def change_length(self):
        length = self.volume.length
        new = self.random.choice([length - 1, length + 3, length - SECTOR, length + SECTOR, length // 2, SECTOR, 2 * SECTOR, 5000, 100, 0])
        self.volume.set_length(new)
        return f"the file has {new} bytes"
