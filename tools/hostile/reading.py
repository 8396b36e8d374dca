"""A program that reads all rows of the files of a volume, in the order of each of their keys, and what it shows."""
from power_cuts.programs import wrap

LOOP = ["PERFORM UNTIL {s} NOT <", '"10"', "READ {f} NEXT", "IF {s} <", '"10"', "DISPLAY {s} {r}", "ELSE", "DISPLAY {s}", "END-IF",
        "END-PERFORM."]


STATEMENTS_OF_A_ROW = 5


class ReadingProgram:
    """`text` is the source. The files are those with these names and descriptions."""

    def __init__(self, content):
        self.files = [(file.name, file.description) for file in content]
        parts = [Part(i, name, description) for i, (name, description) in enumerate(self.files, 1)]
        self.text = "\n".join(
            ["       IDENTIFICATION DIVISION.", "       PROGRAM-ID. READS.", "       ENVIRONMENT DIVISION.", "       INPUT-OUTPUT SECTION.",
             "       FILE-CONTROL.", *(line for part in parts for line in part.select()),
             "       DATA DIVISION.", "       FILE SECTION.", *(line for part in parts for line in part.records()),
             "       WORKING-STORAGE SECTION.", *(f"       01  {part.s} PIC XX." for part in parts),
             "       PROCEDURE DIVISION.", "       MAIN-PARAGRAPH.", *(line for part in parts for line in part.statements()),
             "           STOP RUN.", ""]).encode()

    def budget(self, content):
        """More statements than a run over a volume with this content takes. In a damaged tree a row may lead back to earlier ones, and then
        the budget ends the run."""
        orders = sum((len(file.rows) + 4) * (1 + len(file.description.alternates)) for file in content)
        return str(2 * STATEMENTS_OF_A_ROW * orders)

    def shown(self, content):
        """What a run shows over a volume with this content."""
        found = {file.name: file for file in content}
        return b"".join(shown_of(found.get(name), description) for name, description in self.files)


class Part:
    """What the program has of one file. Each key has a record of its own, so that keys may overlap."""

    def __init__(self, i, name, description):
        self.i, self.name, self.description = i, name, description
        self.f, self.r, self.s = f"F{i}", f"R{i}", f"S{i}"

    def keys(self):
        """The names of the keys, the prime key first."""
        if not self.description.prime:
            return []
        return [(f"K-{self.i}", self.description.prime)] + [(f"A{j}-{self.i}", key) for j, key in enumerate(self.description.alternates, 1)]

    def select(self):
        words = ["SELECT", self.f, "ASSIGN TO", f'"{self.name.decode()}"', "ORGANIZATION IS", self.description.kind.upper()]
        for at, (name, key) in enumerate(self.keys()):
            words += ["ALTERNATE RECORD KEY IS" if at else "ACCESS MODE IS DYNAMIC RECORD KEY IS", name]
            words += ["WITH DUPLICATES"] if at and key.duplicates else []
        return wrap(words + ["FILE STATUS IS", f"{self.s}."])

    def records(self):
        lines = [f"       FD  {self.f}.", f"       01  {self.r} PIC X({self.description.length})."]
        for name, key in self.keys():
            lines += [f"       01  {name}-RECORD."]
            lines += [f"           05  FILLER PIC X({key.offset})."] if key.offset else []
            lines += [f"           05  {name} PIC X({key.length})."]
        return lines

    def statements(self):
        loop = [word.format(f=self.f, r=self.r, s=self.s) for word in LOOP]
        lines = wrap([f"OPEN INPUT {self.f}."]) + wrap([f"DISPLAY {self.s}."]) + wrap(loop)
        for name, _ in self.keys()[1:]:
            lines += wrap([f"MOVE LOW-VALUES TO {name}."])
            lines += wrap([f"START {self.f}", "KEY IS NOT LESS THAN", f"{name}."]) + wrap([f"DISPLAY {self.s}."]) + wrap(loop)
        return lines


def shown_of(file, description):
    """What the part of a file shows. `file` is what the volume has of that name."""
    if file is None or file.description != description:
        return (b"39\n" if file else b"35\n") + b"47\n" * len(description.alternates)
    orders = [b"00\n" + b"".join(b"00%s\n" % row.record for row in file.rows) + b"10\n"]
    for i, key in enumerate(description.alternates):
        rows = [((key.of(row.record), row.arrivals[i]), row.record) for row in file.rows]
        orders.append(shown_in_order(sorted(rows, key=lambda row: row[0])))
    return b"".join(orders)


def shown_in_order(rows):
    """What the rows show in the order of an alternate key. Each is a value with its arrival, and a record. READ NEXT goes to the next
    value or arrival, so it passes over a row with the arrival of the row before it. Only a volume of halves that something else wrote has
    such rows."""
    if not rows:
        return b"23\n"
    befores = [None] + [place for place, _ in rows]
    read = [row for row, before in zip(rows, befores) if row[0] != before]
    nexts = [value for (value, _), _ in read[1:]] + [None]
    shown = [b"%s%s\n" % (b"02" if place[0] == value else b"00", record) for (place, record), value in zip(read, nexts)]
    return b"00\n" + b"".join(shown) + b"10\n"
