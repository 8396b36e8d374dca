"""Volumes on which random programs run, one after the other, with power cuts at every call of each run."""
import os
import shutil
from collections import Counter
from random import Random

from power_cuts.checking import examine, holds
from power_cuts.images import Disk
from power_cuts.model import Files
from power_cuts.product import Failure, Product
from power_cuts.programs import Program, random_program, random_shape
from power_cuts.trace import Show, trace_run
from power_cuts.volume import HALVES, SECTOR, TREES, Key, free_sectors, newest_root, printed, read_volume

NAMES = [b"STOCK", b"A", b"SALES-OF-THE-YEAR", b"A B\\C", b"ZZZZZZZZZZZZZZZZZZZZZZZZZZZZZZ"]
SIZES = [1024, 1024, 1024, 1025, 1500, 2048, 2100]
MANY_ROWS = 4500
LONG_KEY = Key(0, 9)
FAULTS = ["pwrite64", "fdatasync", "fdatasync", "fdatasync", "fsync", "write"]


class Case:
    """A volume with its model. Everything random comes from the seed."""

    def __init__(self, program, seed, folder):
        self.random, self.seed, self.folder = Random(seed), seed, folder
        self.product, self.figures = Product(program, folder), Counter()
        self.volume, self.before = f"{folder}/volume", f"{folder}/before"
        self.source, self.image = f"{folder}/program.cob", f"{folder}/program.image"
        self.doubtful, self.others, self.note = {}, [], "format"

    def make_volume(self, share_of_halves=0.15, is_earlier=False):
        """Makes a volume. Only one of trees with the later mark takes long records."""
        sectors = self.random.choice(SIZES)
        self.must("format", self.volume, str(sectors))
        is_of_halves = self.random.random() < share_of_halves
        if is_of_halves:
            make_halves(self.volume, sectors)
            self.figures["volumes of halves"] += 1
        elif is_earlier:
            make_earlier(self.volume)
        self.takes_long = not is_of_halves and not is_earlier
        self.figures["volumes"] += 1
        names = self.random.sample(NAMES, self.random.choice([1, 1, 2, 3]))
        self.shapes = [random_shape(self.random, name, self.takes_long) for name in names]
        self.content = ()

    def must(self, *words):
        ran = self.product.do(*words)
        if ran.status or ran.out:
            raise Failure(f"{words[0]}: {ran}")

    def compile_text(self, text):
        with open(self.source, "wb") as file:
            file.write(text)
        self.must("compile", self.source, self.image)

    def compile(self, program):
        self.compile_text(program.text)
        self.figures["programs"] += 1
        self.figures["file statements"] += len(program.states) - 1

    # Runs without a cut

    def write(self, steps):
        """A random program changes the files."""
        program = self.next_program(steps)
        self.run_whole(program)
        self.content = program.files.now()
        self.confirm(self.content)

    def fill(self, rows):
        """A long run that writes so many rows, or as many as the volume takes, and one that changes some of them at times."""
        program = self.writing(rows)
        ran = self.run_whole(program)
        if ran.status:
            self.figures["full volumes"] += 1
            program = self.writing(ran.out.count(b"\n") - 1)
        self.content = program.files.now()
        self.confirm(self.content)
        if self.random.random() < 0.5 and not ran.status:
            self.change(rows)

    def writing(self, rows):
        program = Program(Random(self.seed), Files.of(self.content), [self.shapes[0]], keep_states=False)
        program.open(0, "OUTPUT")
        program.repeat(0, "write", 1, rows, 1)
        return program.finish()

    def change(self, rows):
        program = Program(self.random, Files.of(self.content), [self.shapes[0]], keep_states=False)
        program.open(0, "I-O")
        if program.connectors[0].access != "sequential":
            program.repeat(0, self.random.choice(["rewrite", "delete"]), 1, rows, self.random.choice([2, 3]))
        self.run_whole(program.finish())
        self.content = program.files.now()
        self.confirm(self.content)

    def run_whole(self, program):
        self.note = "a run without a cut"
        self.compile(program)
        ran = self.product.do("run", self.image, self.volume)
        self.check_end(ran, program)
        return ran

    def check_end(self, ran, program, allowed=()):
        """Compares how a run ended with the model. A full volume and what `allowed` says may end it early."""
        expected = program.shown[:len(ran.out)] if ran.status == 4 else program.shown
        if ran.out != expected:
            raise Failure(f"the run shows {differing(ran.out, expected)}")
        if (ran.status, ran.err) not in [(0, b""), (4, b"refused 81\n"), *allowed]:
            raise Failure(f"the run ends with {ran.status} {ran.err}")

    def confirm(self, content):
        found = examine(self.product, self.volume)
        if not holds(found, content):
            raise Failure(f"the volume holds {found.listing}, not the model's files")

    # Runs with a cut at each call

    def cut(self, steps, with_fault):
        """Runs a random program and looks at the images that each of its calls may leave. The next run begins with the volume that
        this one left, or with one of those images."""
        program = self.next_program(steps)
        self.compile(program)
        self.cut_command(program, ["run", self.image, self.volume], with_fault)

    def cut_command(self, program, words, with_fault):
        """The same of a command that does what a program does."""
        shutil.copyfile(self.volume, self.before)
        fault = (self.random.choice(FAULTS), self.random.randint(1, 30)) if with_fault else None
        self.note = f"{words[0]} with cuts, fault {fault}"
        ran, events = trace_run([self.product.program, *words], self.volume, self.folder, fault)
        allowed = [(4, b"refused 80\n"), (4, b"refused 85\n")] if fault else []
        self.check_end(ran, program, allowed)
        self.figures["calls"] += len(events)
        cuts = Cuts(self, program)
        cuts.follow(events)
        self.content = cuts.end(ran)
        if self.random.random() < 0.4:
            self.content = cuts.restart()

    def migrate(self, with_fault):
        """Migrates the volume with such cuts, and then what was left without a cut. The files stay."""
        self.cut_command(Still(self.content), ["migrate", self.volume], with_fault)
        self.figures["migrations"] += 1
        self.figures["migrations to be done again"] += read_volume(self.volume, newest_root).mark == TREES[0]
        self.note, self.doubtful, self.others = "a migration without a cut", {}, []
        self.must("migrate", self.volume)
        shutil.copyfile(self.volume, self.before)
        self.must("migrate", self.volume)
        if not are_same(self.volume, self.before):
            raise Failure("a second migration changes the volume")
        self.takes_long = True
        self.confirm(self.content)
        self.confirm_stat()

    def confirm_stat(self):
        """`stat` prints the newest mark, the free sectors and the numbers of rows."""
        root, free = read_volume(self.volume, newest_root), read_volume(self.volume, free_sectors)
        head = b"mark %s\ngeneration %d\nsectors %d\nfree %d\nfiles %d\n"
        expected = head % (TREES[-1], root.generation, root.sectors, free, len(self.content))
        expected += b"".join(b"rows %s %d\n" % (printed(file.name), len(file.rows)) for file in self.content)
        ran = self.product.do("stat", self.volume)
        if (ran.status, ran.out, ran.err) != (0, expected, b""):
            raise Failure(f"stat prints {ran.out[:400]}, not {expected[:400]}")

    def next_program(self, steps):
        random = self.random
        if random.random() < 0.1:
            i = random.randrange(len(self.shapes))
            self.shapes[i] = random_shape(random, self.shapes[i].name, self.takes_long)
        shapes = random.sample(self.shapes, len(self.shapes)) + random.sample(self.shapes, random.random() < 0.15)
        return random_program(random, Files.of(self.content), shapes, steps)


class Still:
    """What a command does that shows nothing and keeps these files."""

    shown = b""

    def __init__(self, content):
        self.states = [content]

    def states_after(self, count):
        return range(1)


class Cuts:
    """The power cuts in one traced run."""

    def __init__(self, case, program):
        self.case, self.program, self.random = case, program, case.random
        self.path, self.next_path = f"{case.folder}/disk", f"{case.folder}/next"
        shutil.copyfile(case.before, self.path)
        self.disk, self.shown = Disk(self.path, case.random, case.doubtful), 0
        self.found, self.seen, self.next_content = {}, {}, None

    def follow(self, events):
        self.look("before the first call")
        for number, event in enumerate(events, 1):
            self.shown += event.count if isinstance(event, Show) else 0
            self.disk.follow(event)
            self.look(f"after call {number}, {type(event).__name__} {getattr(event, 'sector', '')}")
        self.case.figures["images"] += len(self.seen)

    def look(self, moment):
        states = self.program.states_after(self.shown)
        for image in self.disk.images():
            key = self.disk.sum_of(image), states
            if key not in self.seen:
                self.seen[key] = True
                self.case.note = f"{moment}, {self.shown} bytes shown, states {states}, sectors {sorted(image)}"
                with self.disk.holding(image):
                    self.check(key[0], states)

    def check(self, total, states):
        try:
            self.compare(total, states)
        except Failure:
            shutil.copyfile(self.path, f"{self.case.folder}/cut")
            raise

    def compare(self, total, states):
        """The host file holds the files of one of these states."""
        if total not in self.found:
            self.found[total] = examine(self.case.product, self.path)
        fitting = [state for state in states if holds(self.found[total], self.program.states[state])]
        if not fitting and self.is_root_in_doubt() and any(holds(self.found[total], content) for content in self.case.others):
            return
        if not fitting:
            raise Failure(f"recovery finds {self.found[total].listing}, which are the files of none of the states {states}")
        if self.random.randrange(len(self.seen)) == 0:
            shutil.copyfile(self.path, self.next_path)
            self.next_content = self.program.states[fitting[0]]

    def is_root_in_doubt(self):
        """Whether the run before failed such that the disk may still have the files of either of two moments of it."""
        return bool(self.disk.doubtful.keys() & {0, 1})

    def end(self, ran):
        """The content that this run left."""
        self.case.note = f"after the run, {self.shown} bytes shown"
        if self.shown != len(ran.out):
            raise Failure(f"the trace has {self.shown} shown bytes, and the run {len(ran.out)}")
        found = examine(self.case.product, self.case.volume)
        states = self.program.states_after(self.shown)
        fitting = [state for state in states if holds(found, self.program.states[state])]
        if not fitting:
            raise Failure(f"the run leaves {found.listing}, which are the files of none of the states {states}")
        if ran.status == 0:
            self.compare_whole()
        self.case.doubtful = self.disk.left_in_doubt(self.case.volume)
        self.case.others = [self.program.states[state] for state in states] if self.case.doubtful else []
        self.case.figures["runs on sectors in doubt"] += bool(self.case.doubtful)
        self.disk.close()
        return self.program.states[fitting[0]]

    def restart(self):
        """The volume becomes one of the images, as after a power cut. Its content."""
        self.case.doubtful, self.case.others = {}, []
        shutil.copyfile(self.next_path, self.case.volume)
        return self.next_content

    def compare_whole(self):
        """The calls that were traced are all that changed the volume."""
        with self.disk.holding(self.disk.newest()):
            if not are_same(self.path, self.case.volume):
                raise Failure("the volume isn't what the traced calls wrote")


def make_halves(volume, sectors):
    """Makes a new volume one of halves without files, which no command makes."""
    with open(volume, "r+b") as file:
        file.write((HALVES[0] + bytes(8) + sectors.to_bytes(4, "big")).ljust(SECTOR, b"\0"))


def make_earlier(volume):
    """Makes a new volume of trees one with the earlier mark, which no command makes."""
    with open(volume, "r+b") as file:
        file.write(TREES[0])


def are_same(one, other):
    with open(one, "rb") as first, open(other, "rb") as second:
        return first.read() == second.read()


def large_shape(random, name):
    """A file of long records, of which 4,500 fill a small volume, or need a second map sector in a larger one."""
    while True:
        shape = random_shape(random, name)
        if shape.description.length > 700 and len(shape.alternates) < 2 and (shape.description.prime or LONG_KEY).length >= 6:
            return shape


def differing(text, expected):
    """Where two texts begin to differ."""
    at = next((i for i, (one, two) in enumerate(zip(text, expected)) if one != two), min(len(text), len(expected)))
    return f"{text[max(0, at - 60):at + 60]!r}, not {expected[max(0, at - 60):at + 60]!r}, from byte {at} on"


def keep(case, failure, kept):
    """Copies what is needed to see a failure again into a folder, and returns its name."""
    target = f"{kept}/seed-{case.seed}"
    os.makedirs(target, exist_ok=True)
    for name in ("program.cob", "program.image", "before", "cut", "volume", "calls", "out", "err"):
        if os.path.exists(f"{case.folder}/{name}"):
            shutil.copyfile(f"{case.folder}/{name}", f"{target}/{name}")
    with open(f"{target}/what", "w") as file:
        file.write(f"seed {case.seed}\n{case.note}\n{failure}\n")
    return target


def run_case(program, seed, folder):
    """A whole case: its volume, the runs on it, and the cuts in them."""
    case = Case(program, seed, folder)
    random = case.random
    try:
        case.make_volume()
        if random.random() < 0.03:
            case.shapes = [large_shape(random, NAMES[0])]
            case.fill(MANY_ROWS)
            case.cut(4, with_fault=False)
            return case, None
        if random.random() < 0.2:
            case.fill(random.choice([30, 100, 300]))
        for _ in range(random.choice([1, 2, 2, 3])):
            case.cut(random.choice([8, 15, 30]), with_fault=random.random() < 0.3)
    except Failure as failure:
        return case, failure
    return case, None


def make_earlier_volume(case):
    """Makes a volume with the earlier mark and files, on which random programs ran."""
    case.make_volume(share_of_halves=0, is_earlier=True)
    for _ in range(case.random.choice([0, 1, 2, 3])):
        case.write(case.random.choice([8, 30, 60]))
    if case.random.random() < 0.2:
        case.fill(case.random.choice([30, 100, 300]))


def run_migration(program, seed, folder):
    """A case of a volume that is migrated, and of a run on it afterwards, both with cuts."""
    case = Case(program, seed, folder)
    try:
        make_earlier_volume(case)
        case.migrate(with_fault=case.random.random() < 0.3)
        case.cut(15, with_fault=False)
    except Failure as failure:
        return case, failure
    return case, None
