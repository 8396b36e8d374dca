"""Changes of a volume by its fields.

A change chooses a name first, so that rare fields change as often as those of rows. The format has no sums of bytes that a change would
have to keep, but its fields have to agree with one another. So half of the changes keep some agreement: a page moves or gets another
number, all generations rise, a row loses its place, a value of an alternate key changes both in the row and in its tree. Many of these
volumes are sound, and some are damaged at one place that only a reader of all pages finds."""
from power_cuts.volume import SECTOR, TREES

NUMBER = 8
PAGE_NAMES = ("root: catalog", "catalog: root of rows", "catalog: alternate root", "catalog: inner child", "rows: inner child",
              "alternate: inner child", "rows: first page", "chain: next page")


class FieldChange:
    """One to three changes of a scratch copy whose fields are these."""

    def __init__(self, random, fields):
        self.random, self.fields, self.volume = random, fields, fields.volume
        self.names = sorted(fields.named)

    def make(self):
        """Makes changes in the file, and says which."""
        kinds = [self.change_field] * self.random.choice([1, 1, 2])
        if self.random.random() < 0.5:
            agreeing = [self.move_page, self.renumber_page, self.raise_generations, self.change_value, self.change_value, self.drop_row]
            kinds = [self.random.choice(agreeing)] + kinds[:self.random.choice([0, 0, 1])]
        made = [kind() for kind in kinds]
        self.volume.flush()
        return "changed: " + "; ".join(made)

    # One field

    def change_field(self):
        name = self.random.choice(self.names)
        field = self.random.choice(self.fields.named[name])
        draw = self.random.random()
        if draw < 0.25:
            return self.copy_field(name, field)
        if field.length > NUMBER or draw > 0.9:
            return self.change_byte(name, field)
        return self.change_number(name, field)

    def copy_field(self, name, field):
        """Another field of the name has the same bytes, or both change places."""
        other = self.random.choice(self.fields.named[name])
        length = min(field.length, other.length)
        first, second = self.volume.read(field.at, length), self.volume.read(other.at, length)
        self.volume.write(other.at, first)
        if self.random.random() < 0.6:
            self.volume.write(field.at, second)
        return f"{name} at {field.at} is at {other.at}"

    def change_byte(self, name, field):
        near = self.random.choice([0, field.length - 1, self.random.randrange(field.length)]) if field.length else 0
        at = field.at + near
        value = self.volume.number(at, 1) + self.random.choice([1, 255, 128, self.random.randrange(1, 256)])
        self.volume.write_number(at, 1, value)
        return f"byte {near} of {name} at {field.at} is {value % 256}"

    def change_number(self, name, field):
        old = self.volume.number(field.at, field.length)
        used = sorted(self.volume.sectors)
        new = self.random.choice([old + 1, old - 1, old + 2, old - 2, 0, 1, 2, 256 ** field.length - 1, 2 * old, old ^ 1, self.volume.count,
                                  self.volume.count - 1, self.random.choice(used), self.random.randrange(256 ** field.length)])
        self.volume.write_number(field.at, field.length, new)
        return f"{name} at {field.at}: {old} becomes {new % 256 ** field.length}"

    # Fields that agree

    def free_sector(self):
        free = [sector for sector in range(2, self.volume.length // SECTOR) if sector not in self.volume.sectors]
        return self.random.choice(free[:5] + free[-5:])

    def move_page(self):
        """A page is in another sector."""
        if self.fields.root.mark not in TREES or not self.fields.named.get("map: page"):
            return self.raise_generations()
        entry, sector = self.random.choice(self.fields.named["map: page"]), self.free_sector()
        old = self.volume.number(entry.at, 4)
        self.volume.put(sector, self.volume.sector(old))
        self.volume.write_number(entry.at, 4, sector)
        return f"the page of sector {old} is in sector {sector}"

    def renumber_page(self):
        """A page has another number, in the map and where it is named."""
        named = [(name, field) for name in PAGE_NAMES for field in self.fields.named.get(name, [])]
        free = self.fields.named.get("map: free page", [])[1:]
        if not named or not free:
            return self.raise_generations()
        (name, field), place = self.random.choice(named), self.random.choice(free[:3] + free[-3:])
        page = self.volume.number(field.at, 4)
        entry = next((it for it in self.fields.named.get("map: page", []) if self.page_of(it) == page), None)
        if entry is None:
            return self.raise_generations()
        self.volume.write(place.at, self.volume.read(entry.at, 4))
        self.volume.write_number(entry.at, 4, 0)
        self.volume.write_number(field.at, 4, self.page_of(place))
        return f"{name} at {field.at}: page {page} is page {self.page_of(place)}"

    def page_of(self, entry):
        """The page of an entry of the map."""
        sector, offset = divmod(entry.at, SECTOR)
        return 1024 * self.fields.maps.index(sector) + offset // 4

    def raise_generations(self):
        """Both roots have a later generation, or an earlier one."""
        by = self.random.choice([2, 4, 1000, 2**62, 2**63 - 2 - self.fields.root.generation // 2 * 2, -2])
        for name in ("root: generation", "older root: generation"):
            field = self.fields.named[name][0]
            if any(self.volume.read(field.at - 8, 8)):
                self.volume.write_number(field.at, 8, self.volume.number(field.at, 8) + by)
        return f"the generations rise by {by}"

    def change_value(self):
        """A byte of a record changes, or a byte of a value of an alternate key in the row and in its tree."""
        files = [file for file in self.fields.files if file.rows]
        if not files:
            return self.raise_generations()
        file = self.random.choice(files)
        key_at, at = self.random.choice(file.rows)
        if not file.description.alternates:
            return self.change_record(file, at)
        i = self.random.randrange(len(file.description.alternates))
        return self.change_alternate(file, i, at)

    def change_record(self, file, at):
        offset = self.random.randrange(file.description.length)
        place = file.byte_place(at, offset)
        self.volume.write_number(place, 1, self.volume.number(place, 1) + 1)
        return f"byte {offset} of the record at {at} rises"

    def change_alternate(self, file, i, at):
        """A byte of a value rises in the record, and in the entry that leads to it, if the volume has one."""
        key = file.description.alternates[i]
        arrival = self.volume.read(file.arrivals_place(at) + 8 * i, 8)
        offset, by = self.random.choice([0, key.length - 1, self.random.randrange(key.length)]), self.random.choice([1, 1, -1])
        old = b"".join(self.volume.read(file.byte_place(at, key.offset + j), 1) for j in range(key.length))
        entries = [entry_at for entry_at, _ in (file.alternates[i] if file.alternates else [])
                   if self.volume.read(entry_at, key.length + 8) == old + arrival]
        places = [file.byte_place(at, key.offset + offset), *(entry_at + offset for entry_at in entries)]
        for place in places:
            self.volume.write_number(place, 1, self.volume.number(place, 1) + by)
        return f"byte {offset} of a value of alternate key {i} changes by {by}, in the record at {at} and {len(places) - 1} entries"

    def drop_row(self):
        """A page, or the last file of a half, has one row less."""
        names = [name for name in ("rows: rows of a page", "alternate: rows of a page", "half: rows") if name in self.fields.named]
        if not names:
            return self.raise_generations()
        name = self.random.choice(names)
        field = self.fields.named[name][-1] if name == "half: rows" else self.random.choice(self.fields.named[name])
        self.volume.write_number(field.at, field.length, self.volume.number(field.at, field.length) - 1)
        if name == "half: rows" and self.fields.files[-1].rows:
            used = self.fields.named["root: bytes in use"][0]
            length = self.volume.number(used.at, 8) - self.last_row_length()
            self.volume.write_number(used.at, 8, length)
        return f"{name} at {field.at}: one less"

    def last_row_length(self):
        file = self.fields.files[-1]
        key_at, record_at = file.rows[-1]
        return record_at - key_at + file.description.length + 8 * len(file.description.alternates)
