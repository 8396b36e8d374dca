"""Random programs of file statements, and what they do to the files of a volume by the model.

`Program` writes the text of a program and does each file statement on the model at the same time. After `finish`, `text` is the
source, `shown` what a whole run shows, `states` the volume's files after the first 0, 1, 2 .. file statements, and `states_after`
which of these are possible after a stop, by the number of bytes that were shown before it."""
from bisect import bisect_left
from dataclasses import dataclass, field
from itertools import accumulate

from power_cuts.model import Connector, Files
from power_cuts.volume import LONGEST, PART, SHORT, Description, Key

RELATIONS = {"=": ["EQUAL TO", "="], ">": ["GREATER THAN", ">"], ">=": ["NOT LESS THAN", "NOT <", "GREATER OR EQUAL TO", ">="]}
FIGURES = {b"\0": "LOW-VALUES", b"\xff": "HIGH-VALUES", b" ": "SPACES", b"0": "ZEROS", b'"': "QUOTES"}
# Of the files on a volume that takes long records, how many may have them.
SHARE_OF_LONG = 0.3
OPEN_MODES = ["INPUT", "OUTPUT", "I-O"]


@dataclass
class Shape:
    """A file as programs describe it: the parts of its record, by the letter and number in their names."""
    name: bytes
    description: Description
    parts: list
    lead: tuple = None
    alternates: list = field(default_factory=list)
    spread: int = 20

    def place(self, part):
        return next(key for name, key, _ in self.parts if name == part)

    def bodies(self):
        return [name for name, _, _ in self.parts if name.startswith("B")]


def random_shape(random, name, takes_long=False):
    """A file. Its record has at most 1,000 bytes, or 16,000 where the volume takes long ones."""
    kind = random.choice(["indexed", "indexed", "indexed", "relative", "sequential"])
    longest = LONGEST if takes_long and random.random() < SHARE_OF_LONG else SHORT
    most = random.choice([40, 150, 400, 1000] if longest == SHORT else [PART, 3 * PART, LONGEST])
    lengths = {"B1": random.randint(1, most)}
    keys = {}
    if kind == "indexed":
        lengths["K"] = random.choice([1, 2, 6, 9, 40, 100])
        for i in range(random.choice([0, 1, 1, 2, 3, 7])):
            lengths[f"A{i + 1}"] = random.choice([1, 2, 8, 8, 30, 100])
            keys[f"A{i + 1}"] = random.random() < 0.6
    lengths["B2"] = random.randint(1, 20)
    while sum(lengths.values()) > longest:
        lengths["B1"] = max(1, lengths["B1"] - 100)
        if lengths["B1"] == 1:
            lengths.update({part: 8 for part in keys})
    return lay_out(random, name, kind, lengths, keys)


def lay_out(random, name, kind, lengths, keys):
    """The parts of a record one after the other, in a random order. The prime key may be a group whose second item is a key too."""
    order, offset, parts, lead = random.sample(sorted(lengths), len(lengths)), 0, [], None
    for part in order:
        parts.append((part, Key(offset, lengths[part]), 5))
        if part == "K" and lengths[part] >= 4 and random.random() < 0.4:
            cut = random.randint(1, lengths[part] - 1)
            lead = Key(offset, cut)
            parts += [("KL", lead, 10), ("KT", Key(offset + cut, lengths[part] - cut), 10)]
            if len(keys) < 7 and random.random() < 0.5:
                keys["KT"] = random.random() < 0.7
        offset += lengths[part]
    places = {part: key for part, key, _ in parts}
    alternates = sorted(keys, key=lambda part: places[part].offset)
    described = tuple(Key(places[part].offset, places[part].length, keys[part]) for part in alternates)
    description = Description(kind, offset, places.get("K"), described)
    return Shape(name, description, parts, lead, alternates, random.choice([8, 30, 400]))


def random_value(random, length, spread):
    """A value of a key or another item: one of about `spread`."""
    draw = random.random()
    if draw < 0.04:
        return random.choice(sorted(FIGURES)) * length
    one = random.randrange(spread)
    if length < 3:
        return bytes(33 + (one * 7 + i * one) % 94 for i in range(length))
    text = b"%c%03d" % (65 + one % 7, one) if draw < 0.9 else b"\\%d\"'" % one
    return (text * (1 + random.randrange(8)))[:min(length, 40)].ljust(length)


def operand(value):
    """How a program writes a value, or None."""
    if len(set(value)) == 1 and value[:1] in FIGURES:
        return FIGURES[value[:1]]
    text = value.rstrip(b" ") or b" "
    if len(text) > 46 or any(not 0x20 <= byte <= 0x7E for byte in text):
        return None
    return '"%s"' % text.decode().replace('"', '""')


@dataclass
class Step:
    """Some file statements whose statuses are shown by one DISPLAY, and what that shows."""
    statements: int
    shown: bytes


class Program:
    """A program over some shapes. Each connector is a SELECT of a file, by a number in its names."""

    def __init__(self, random, files, shapes, keep_states=True):
        self.random, self.files, self.keep_states = random, files, keep_states
        self.shapes, self.connectors, self.clauses, self.lines = [], [], [], []
        self.steps, self.states = [], [files.now()]
        for shape in shapes:
            self.select(shape)

    # Divisions before the statements

    def select(self, shape):
        kind, random = shape.description.kind, self.random
        access = "sequential" if kind == "sequential" else random.choice(["sequential", "random", "dynamic", "dynamic"])
        has_number = kind == "relative" and (access != "sequential" or random.random() < 0.7)
        digits = random.choice([1, 2, 4, 9]) if has_number else None
        optional = random.random() < 0.3
        self.shapes.append(shape)
        self.connectors.append(Connector(self.files, shape.name, shape.description, access, optional, digits))
        self.clauses.append(self.select_words(len(self.shapes), shape, self.connectors[-1]))

    def select_words(self, i, shape, connector):
        words = ["SELECT", *(["OPTIONAL"] if connector.optional else []), f"F{i}", "ASSIGN TO", f'"{shape.name.decode()}"']
        words += ["ORGANIZATION IS", shape.description.kind.upper(), "ACCESS MODE IS", connector.access.upper()]
        if connector.digits:
            words += ["RELATIVE KEY IS", f"N{i}"]
        if shape.description.kind == "indexed":
            words += ["RECORD KEY IS", f"K-{i}"]
        for part, key in self.random.sample(list(zip(shape.alternates, shape.description.alternates)), len(shape.alternates)):
            words += ["ALTERNATE RECORD KEY IS", f"{part}-{i}", *(["WITH DUPLICATES"] if key.duplicates else [])]
        return words + ["FILE STATUS IS", f"S{i}."]

    def finish(self):
        """The text of the program with all that was emitted."""
        self.text = "\n".join(self.head() + self.lines + ["           STOP RUN.", ""]).encode()
        return self.add_up()

    def add_up(self):
        """Adds up the steps: what is shown before each, and how many file statements are done after each."""
        self.shown = b"".join(step.shown for step in self.steps)
        self.begun = [0, *accumulate(len(step.shown) for step in self.steps)][:len(self.steps)]
        self.done = [0, *accumulate(step.statements for step in self.steps)]
        return self

    def head(self):
        lines = ["       IDENTIFICATION DIVISION.", "       PROGRAM-ID. CUTS.", "       ENVIRONMENT DIVISION.",
                 "       INPUT-OUTPUT SECTION.", "       FILE-CONTROL."]
        for words in self.clauses:
            lines += wrap(words)
        lines += ["       DATA DIVISION.", "       FILE SECTION."]
        for i, shape in enumerate(self.shapes, 1):
            lines += [f"       FD  F{i}.", f"       01  R{i}."]
            lines += [entry(f"{part}-{i}", key, level, part == "K" and shape.lead) for part, key, level in shape.parts]
        lines += ["       WORKING-STORAGE SECTION.", "       01  I PIC 9(6)."]
        for i, connector in enumerate(self.connectors, 1):
            lines.append(f"       01  S{i} PIC XX.")
            lines += [f"       01  N{i} PIC 9({connector.digits})."] if connector.digits else []
        return lines + ["       PROCEDURE DIVISION.", "       MAIN-PARAGRAPH."]

    def states_after(self, count):
        """The states that a stop may leave once so many bytes were shown: `count` of them, from the number of the first on."""
        steps = bisect_left(self.begun, count)
        last = self.done[min(steps + 1, len(self.steps))]
        return range(self.done[steps], last + 1)

    # Statements

    def emit(self, *words):
        self.lines += wrap(list(words[:-1]) + [words[-1] + "."])

    def file_statement(self, i, verb, *words):
        """Does a file statement on the model, notes the state after it, and returns the status."""
        status = self.connectors[i].do(verb, *words)
        self.states.append(self.files.now() if self.keep_states else None)
        return status.encode()

    def display(self, i, status, with_record=False):
        """Shows the status of the file statement before, and its record."""
        record = bytes(self.connectors[i].area) if with_record else b""
        self.emit("DISPLAY", f"S{i + 1}", *([f"R{i + 1}"] if with_record else []))
        self.steps.append(Step(1, status + record + b"\n"))

    def move(self, i, part, value):
        if operand(value):
            self.emit("MOVE", operand(value), "TO", f"{part}-{i + 1}")
            self.connectors[i].move(self.shapes[i].place(part), value)

    def move_number(self, i, number):
        if self.connectors[i].digits:
            number %= 10 ** self.connectors[i].digits
            self.emit("MOVE", str(number), "TO", f"N{i + 1}")
            self.connectors[i].number = number

    def open(self, i, mode):
        self.emit("OPEN", mode, f"F{i + 1}")
        self.display(i, self.file_statement(i, "open", mode))

    def close(self, chosen):
        self.emit("CLOSE", *[f"F{i + 1}" for i in chosen])
        statuses = [self.file_statement(i, "close") for i in chosen]
        self.emit("DISPLAY", *[f"S{i + 1}" for i in chosen])
        self.steps.append(Step(len(chosen), b"".join(statuses) + b"\n"))

    def change(self, i, verb):
        self.emit(verb.upper(), f"F{i + 1}" if verb == "delete" else f"R{i + 1}")
        self.display(i, self.file_statement(i, verb))

    def read(self, i, key=None, is_next=True):
        if is_next:
            word = "NEXT" if self.connectors[i].access == "dynamic" else self.random.choice(["NEXT", "RECORD"])
            self.emit("READ", f"F{i + 1}", word)
            status = self.file_statement(i, "read_next")
        else:
            name = "K" if key is None else self.shapes[i].alternates[key]
            has_key = self.shapes[i].description.kind == "indexed" and (key is not None or self.random.random() < 0.5)
            self.emit("READ", f"F{i + 1}", *(["KEY IS", f"{name}-{i + 1}"] if has_key else []))
            status = self.file_statement(i, "read_key", key)
        self.display(i, status, with_record=True)

    def start(self, i, relation, key=None, lead=False):
        shape, words = self.shapes[i], self.random.choice(RELATIONS[relation])
        name = "KL" if lead else "K" if key is None else shape.alternates[key]
        item = f"{name}-{i + 1}" if shape.description.kind == "indexed" else f"N{i + 1}"
        self.emit("START", f"F{i + 1}", "KEY IS", words, item)
        self.display(i, self.file_statement(i, "start", relation, key, shape.lead.length if lead else None))

    def repeat(self, i, verb, first, last, by):
        """A loop of one file statement, with a number in the prime key and in the unique keys, or in RELATIVE KEY."""
        shape, number = self.shapes[i], f"{i + 1}"
        places = [part for part in ("K", *shape.alternates) if part == "K" or not shape.description.alternates[
            shape.alternates.index(part)].duplicates] if shape.description.kind == "indexed" else []
        moved = [word for part in places for word in ("MOVE I TO", f"{part}-{number}")]
        moved += ["MOVE I TO", f"N{number}"] if self.connectors[i].digits else []
        done = [verb.upper(), f"F{number}" if verb == "delete" else f"R{number}", "DISPLAY", f"S{number}"]
        self.emit("PERFORM VARYING I", f"FROM {first}", f"BY {by}", f"UNTIL I > {last}", *moved, *done, "END-PERFORM")
        for one in range(first, last + 1, by):
            for part in places:
                self.connectors[i].move(shape.place(part), b"%06d" % one)
            self.connectors[i].number = one % 10 ** (self.connectors[i].digits or 1)
            self.steps.append(Step(1, self.file_statement(i, verb) + b"\n"))


def wrap(words):
    """Words as lines of area B. Each word may have spaces."""
    lines, line = [], "          "
    for word in words:
        if len(line) + 1 + len(word) > 72:
            lines.append(line)
            line = "               "
        line += " " + word
    return lines + [line]


def entry(item, key, level, is_group):
    indent = "           " if level == 5 else "               "
    return f"{indent}{level:02}  {item}" + ("." if is_group else f" PIC X({key.length}).")


class Author:
    """Chooses the statements of a program at random, most of them such that they change files."""

    def __init__(self, program):
        self.program, self.random = program, program.random

    def write(self, steps):
        while len(self.program.steps) < steps:
            self.add(self.random.randrange(len(self.program.connectors)))
        if self.random.random() < 0.5:
            self.program.close(self.random.sample(range(len(self.program.connectors)), len(self.program.connectors)))
        return self.program.finish()

    def add(self, i):
        connector = self.program.connectors[i]
        if not connector.mode and self.random.random() < 0.95:
            self.program.open(i, self.mode_for(i))
        elif self.random.random() < (0.6 if self.is_at_end(connector) else 0.04):
            self.program.close([i])
        elif self.random.random() < 0.02:
            self.program.open(i, self.mode_for(i))
        elif self.random.random() < 0.05:
            self.add_verb(i, self.random.choice(["write", "rewrite", "delete", "read", "start"]))
        else:
            self.add_verb(i, self.fitting_verb(i))

    def is_at_end(self, connector):
        """Whether there is no more to read or to change before the file is opened again."""
        return connector.access == "sequential" and connector.mode in ("INPUT", "I-O") and connector.position is None

    def mode_for(self, i):
        connector, draw = self.program.connectors[i], self.random.random()
        is_sequential = connector.description.kind == "sequential"
        if connector.name not in self.program.files.files and not connector.optional and draw < 0.9:
            return "OUTPUT"
        if is_sequential and draw < 0.5:
            return "EXTEND"
        return self.random.choice(OPEN_MODES) if draw > 0.8 else "I-O"

    def fitting_verb(self, i):
        """A verb that the file's mode permits."""
        connector, random = self.program.connectors[i], self.random
        if connector.mode in ("OUTPUT", "EXTEND"):
            return "write"
        if connector.mode == "INPUT":
            return random.choice(["read", "read", "start"])
        if connector.access != "sequential":
            return random.choice(["write"] * 5 + ["rewrite"] * 4 + ["delete"] * 2 + ["read", "start"])
        return random.choice(["rewrite", "rewrite", "delete"]) if connector.just_read is not None else random.choice(["read"] * 5 + ["start"])

    def add_verb(self, i, verb):
        connector = self.program.connectors[i]
        kind, access = connector.description.kind, connector.access
        if verb == "delete" and kind == "sequential" or verb == "start" and (kind == "sequential" or access == "random"):
            verb = "read"
        if verb == "start" and kind == "relative" and not connector.digits:
            verb = "read"
        {"write": self.add_write, "rewrite": self.add_rewrite, "delete": self.add_delete, "read": self.add_read,
         "start": self.add_start}[verb](i)

    def add_write(self, i):
        self.vary(i)
        self.name_row(i, 0.15)
        self.program.change(i, "write")

    def add_rewrite(self, i):
        if self.random.random() < 0.9:
            is_named = self.program.connectors[i].access != "sequential" or self.random.random() < 0.1
            self.vary(i, keeps_prime=not is_named)
            if is_named:
                self.name_row(i, 0.8)
        self.program.change(i, "rewrite")

    def add_delete(self, i):
        self.name_row(i, 0.8)
        self.program.change(i, "delete")

    def add_read(self, i):
        connector, shape = self.program.connectors[i], self.program.shapes[i]
        if connector.access == "sequential" or connector.access == "dynamic" and self.random.random() < 0.5:
            return self.program.read(i)
        key = self.random.choice([None, *range(len(shape.alternates))])
        self.name_row(i, 0.7)
        if key is not None:
            self.move_part(i, shape.alternates[key])
        self.program.read(i, key, is_next=False)

    def add_start(self, i):
        shape = self.program.shapes[i]
        key = self.random.choice([None, *range(len(shape.alternates))])
        lead = key is None and shape.lead is not None and self.random.random() < 0.5
        self.name_row(i, 0.5)
        if key is not None or lead:
            self.move_part(i, "KL" if lead else shape.alternates[key])
        if shape.description.kind == "relative" and not self.program.connectors[i].number:
            self.program.move_number(i, 1)
        self.program.start(i, self.random.choice(["=", ">", ">=", ">="]), key, lead)

    def vary(self, i, keeps_prime=False):
        """Moves new values to some parts of the record."""
        shape = self.program.shapes[i]
        for part in (*shape.alternates, *shape.bodies()):
            if self.random.random() < 0.7 and not (part == "KT" and keeps_prime):
                self.move_part(i, part)

    def move_part(self, i, part):
        shape = self.program.shapes[i]
        self.program.move(i, part, random_value(self.random, shape.place(part).length, shape.spread))

    def name_row(self, i, chance):
        """Names a row by its prime key or number: with this chance one that is there."""
        shape, connector, random = self.program.shapes[i], self.program.connectors[i], self.random
        file = self.program.files.files.get(shape.name)
        primes = sorted(file.rows) if file and file.description.kind == shape.description.kind else []
        prime = random.choice(primes) if primes and random.random() < chance else None
        if shape.description.kind == "indexed":
            length = shape.description.prime.length
            self.program.move(i, "K", prime if prime and len(prime) == length else self.new_prime(shape, connector))
        elif connector.digits:
            numbers = [random.randint(1, 12), random.randint(1, 12), random.randint(0, 400), 999_999_999]
            self.program.move_number(i, prime or random.choices(numbers, [8, 8, 4, 1])[0])

    def new_prime(self, shape, connector):
        """A random prime key, mostly greater than the last if a file is written in sequence."""
        drawn = sorted(random_value(self.random, shape.description.prime.length, shape.spread) for _ in range(4))
        if connector.access != "sequential" or connector.last_written is None:
            return self.random.choice(drawn)
        return next((one for one in drawn if one > connector.last_written), drawn[-1])


def random_program(random, files, shapes, steps, keep_states=True):
    """A program that changes these files, which are the model's."""
    return Author(Program(random, files, shapes, keep_states)).write(steps)
