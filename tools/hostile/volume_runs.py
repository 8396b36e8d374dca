"""Volumes that were changed at random: `list`, `dump`, runs and migrations next to the reader of the format."""
import os
import shutil

from hostile.byte_changes import ByteChange, entry_lengths
from hostile.field_changes import FieldChange
from hostile.fields import Fields
from hostile.reading import ReadingProgram
from power_cuts.answers import check_answer
from power_cuts.cases import Case
from power_cuts.checking import examine, files_of, summary
from power_cuts.product import Failure, Ran
from power_cuts.scratch import Scratch
from power_cuts.volume import TREES, HostFile, is_openable, newest_root, read_volume

CHANGES = 200
DAMAGED, FULL = Ran(4, b"", b"refused 82\n"), Ran(4, b"", b"refused 81\n")
# The seeds of each so many of which the last one has the earlier mark, if its volume is of trees.
EARLIER = 4


def run_volumes(program, seed, folder):
    """A case of one volume with the files of some runs, which is changed 200 times."""
    case = Case(program, seed, folder)
    try:
        make_volume(case)
        volumes = ChangedVolumes(case)
        for _ in range(CHANGES):
            volumes.change_and_compare()
    except Failure as failure:
        return case, failure
    return case, None


def make_volume(case):
    case.make_volume(share_of_halves=0.5, is_earlier=case.seed % EARLIER == EARLIER - 1)
    for _ in range(case.random.choice([1, 3])):
        run_program(case)
    if case.random.random() < 0.5:
        case.fill(case.random.choice([30, 200, 600]))


def run_program(case):
    """A random program changes the volume. Its image stays."""
    program = case.next_program(case.random.choice([10, 40]))
    case.run_whole(program)
    case.content = program.states[-1]
    case.confirm(case.content)
    shutil.copyfile(case.image, writing_image(case))


def writing_image(case):
    return f"{case.folder}/writing.image"


class ChangedVolumes:
    """A copy of the case's volume that is changed in place, a program that reads it, and one that writes to it."""

    def __init__(self, case):
        self.case, self.product, self.random = case, case.product, case.random
        self.scratch = Scratch(case.volume, f"{case.folder}/cut")
        self.fields, self.lengths = Fields(self.scratch), entry_lengths(case.content)
        self.is_earlier = read_volume(case.volume, newest_root).mark == TREES[0]
        self.reading = ReadingProgram(case.content) if case.content else None
        if self.reading:
            case.compile_text(self.reading.text)

    def change_and_compare(self):
        """Makes changes, compares what all readers find, and takes the changes back."""
        self.case.note = self.change()
        found = self.examine()
        self.is_openable = not found.refused or self.opens()
        self.count(found)
        if self.reading:
            self.read_by_a_run(found)
        if self.is_earlier:
            self.migrate(found)
            self.scratch.build()
        elif self.random.random() < 0.2:
            self.write_by_a_run(found)
            self.scratch.build()
        self.scratch.restore()

    def opens(self):
        with open(self.scratch.path, "rb") as file:
            return is_openable(HostFile(file))

    def change(self):
        if self.random.random() < 0.5:
            return "fields " + FieldChange(self.random, self.fields).make()
        return "bytes " + ByteChange(self.random, self.scratch, self.lengths).make()

    def count(self, found):
        figures = self.case.figures
        figures["changed volumes"] += 1
        figures["changed volumes damaged" if found.refused else "changed volumes sound"] += 1
        figures["damaged at the opening"] += not self.is_openable

    # list and dump

    def examine(self):
        """What `list`, `dump` and the reader find, which is the same. Nothing is written."""
        before = os.fstat(self.scratch.file).st_mtime_ns
        found = examine(self.product, self.scratch.path)
        if found.refused:
            name = self.case.content[0].name if self.case.content else b"A"
            self.must_be("dump", DAMAGED, self.product.do("dump", "--", self.scratch.path, name))
        if os.fstat(self.scratch.file).st_mtime_ns != before:
            raise Failure("list or dump writes to the volume")
        return found

    def must_be(self, command, expected, ran):
        if ran != expected:
            raise Failure(f"{command} ends with {ran.status} {ran.err} and shows {ran.out[:200]}, not {expected.status} {expected.err}")

    # Runs

    def read_by_a_run(self, found):
        """A run that reads all files shows those that the reader finds, and writes nothing."""
        ran = self.run(self.case.image, "--budget", self.reading.budget([*self.case.content, *(found.files or [])]))
        if not found.refused:
            self.must_be("run", Ran(0, self.reading.shown(found.files), b""), ran)
        elif self.is_openable:
            self.meets_damage(ran)
        self.must_be_unchanged("a run that only reads")

    def run(self, image, *options):
        """A run. It shows nothing and reports damage if the volume can't be opened."""
        ran = self.product.do("run", image, self.scratch.path, *options)
        check_answer("run", ran)
        if not self.is_openable:
            self.must_be("run", DAMAGED, ran)
            self.must_be_unchanged("a refused run")
        return ran

    def must_be_unchanged(self, what):
        if not self.scratch.is_unchanged():
            raise Failure(f"{what} changes the volume")

    def meets_damage(self, ran):
        if (ran.status, ran.err) not in ((0, b""), (4, DAMAGED.err), (5, b"budget\n")):
            raise Failure(f"a run that reads a damaged volume ends with {ran.status} {ran.err}")
        self.case.figures["damage met by a run that reads" if ran.status == 4 else "damage not met by a run that reads"] += 1

    def write_by_a_run(self, found):
        """A run that writes to a sound volume leaves a sound one."""
        ran = self.run(writing_image(self.case))
        self.case.figures["runs that write"] += 1
        if not found.refused:
            self.stays_sound(ran)

    def stays_sound(self, ran):
        if ran.err == DAMAGED.err:
            raise Failure("a run over a sound volume reports damage")
        if examine(self.product, self.scratch.path).refused:
            raise Failure(f"after {ran.status} {ran.err} the volume is damaged: {summary(files_of(self.scratch.path))}")

    # Migrations

    def migrate(self, found):
        """A damaged volume is refused, and a sound one has the same files afterwards. A refused volume stays as it was."""
        ran = self.product.do("migrate", self.scratch.path)
        self.case.figures["migrations"] += 1
        if found.refused or ran == FULL:
            self.must_be("migrate", DAMAGED if found.refused else FULL, ran)
            return self.must_be_unchanged("a refused migration")
        self.must_be("migrate", Ran(0, b"", b""), ran)
        files = files_of(self.scratch.path)
        if files != found.files:
            raise Failure(f"a migration leaves {summary(files)}, not {summary(found.files)}")
        if read_volume(self.scratch.path, newest_root).mark != TREES[-1]:
            raise Failure("a migration leaves the earlier mark")
