"""Inputs of the program that are changed at random: sources, images and volumes.

Each case is of one seed. It keeps what it works on in its folder: program.cob, program.image, the volume, and `cut`, the volume as it was
changed last."""
import os
import resource
from collections import Counter
from random import Random

from hostile.byte_changes import ByteChange, entry_lengths
from hostile.field_changes import FieldChange
from hostile.fields import Fields
from hostile.image_edits import ImageEdit
from hostile.source_edits import SourceEdit, sources
from hostile.volume_runs import make_volume, writing_image
from power_cuts.answers import check_answer
from power_cuts.cases import Case
from power_cuts.checking import examine
from power_cuts.product import Failure, Product, read
from power_cuts.scratch import Scratch

INPUTS = 500
INPUTS_OF_A_SOURCE = 25
SECTORS = "1024"
OPTIONS = ["--budget", "2000", "--date", "850917"]
CONSOLE = b"12\nABC\n-1.5\n\n" + b"Z" * 300 + b"\n00007\n"
SHARE_OF_DUMPS = 0.25
MOST_MEMORY = 2 * 1024 ** 3
# How often a volume is made anew.
SOURCES_OF_A_VOLUME = 3


class Inputs:
    """What cases of sources and of images have in common: a volume with files, and runs over a copy of it."""

    form_of_a_run = "run"

    def __init__(self, program, seed, folder):
        self.random, self.seed, self.folder = Random(seed), seed, folder
        self.product, self.figures, self.note = Product(program, folder), Counter(), "before the first input"
        self.source, self.image, self.volume = f"{folder}/program.cob", f"{folder}/program.image", f"{folder}/volume"
        self.console = f"{folder}/console"

    def begin(self):
        """Makes a volume with the files of some rows."""
        limit_memory()
        self.write(self.console, CONSOLE)
        self.product.do("format", self.volume, SECTORS)
        filed = [text for _, text in sources() if b"SELECT" in text.upper()]
        for text in self.random.sample(filed, SOURCES_OF_A_VOLUME):
            if self.compiles(text):
                self.product.do("run", self.image, self.volume, *OPTIONS)
        self.scratch = Scratch(self.volume, f"{self.folder}/cut")

    def write(self, path, text):
        with open(path, "wb") as file:
            file.write(text)

    def compiles(self, text):
        self.write(self.source, text)
        return self.product.do("compile", self.source, self.image).status == 0

    def run(self):
        """Runs the image over the copy. A run over a sound volume leaves one."""
        ran = self.product.run(("run", self.image, self.scratch.path, *OPTIONS), self.console)
        check_answer(self.form_of_a_run, ran)
        if ran.err == b"refused 82\n":
            raise Failure("a run over a sound volume reports damage")
        if not self.scratch.is_unchanged():
            if examine(self.product, self.scratch.path).refused:
                raise Failure(f"the volume is damaged after a run that ends with {ran.status} {ran.err}")
            self.figures["runs that changed files"] += 1
            self.scratch.build()
        return ran


class Sources(Inputs):
    """Edited sources, compiled, and run if they compile."""

    def try_all(self):
        self.begin()
        for number in range(INPUTS):
            if number % INPUTS_OF_A_SOURCE == 0:
                path, text = self.random_source()
            self.note = f"{os.path.basename(path)}, edit {number}"
            self.try_one(SourceEdit(self.random, text).make())

    def random_source(self):
        """A source, mostly one that compiles."""
        while True:
            path, text = self.random.choice(sources())
            if self.random.random() < 0.1 or self.compiles(text):
                return path, text

    def try_one(self, text):
        self.write(self.source, text)
        if os.path.exists(self.image):
            os.remove(self.image)
        ran = self.product.do("compile", self.source, self.image)
        check_answer("compile", ran)
        if os.path.exists(self.image) != (ran.status == 0):
            raise Failure(f"compile ends with {ran.status} {ran.err}, and the image {'is' if ran.status else 'is not'} there")
        self.figures["sources"] += 1
        self.figures["sources that compile"] += ran.status == 0
        if ran.status == 0:
            self.figures[f"runs that end with {self.run().status}"] += 1


class Images(Inputs):
    """Edited images, run."""

    form_of_a_run = "run of a changed image"

    def try_all(self):
        self.begin()
        text = other = None
        for number in range(INPUTS):
            if number % INPUTS_OF_A_SOURCE == 0:
                text, other = self.random_image(), text or self.random_image()
            self.note = f"edit {number}"
            self.write(self.image, ImageEdit(self.random, text, other).make())
            ran = self.run()
            self.figures["images"] += 1
            self.figures[f"images that are {ran.err.decode().strip()}" if ran.status == 4 else f"images that end with {ran.status}"] += 1

    def random_image(self):
        while not self.compiles(self.random.choice(sources())[1]):
            pass
        return read(self.image)


class Volumes:
    """Changed volumes, of which `list`, `dump` and a run have to give an answer."""

    def __init__(self, program, seed, folder):
        self.case = Case(program, seed, folder)
        self.random, self.product, self.figures = self.case.random, self.case.product, self.case.figures
        self.seed, self.folder, self.note = seed, folder, "before the first input"

    def try_all(self):
        limit_memory()
        make_volume(self.case)
        self.scratch = Scratch(self.case.volume, f"{self.folder}/cut")
        self.fields, self.lengths = Fields(self.scratch), entry_lengths(self.case.content)
        for _ in range(INPUTS):
            self.note = "; ".join(self.change() for _ in range(self.random.choice([1, 2, 4])))
            self.try_one()
            self.scratch.build()

    def change(self):
        if self.random.random() < 0.7:
            return FieldChange(self.random, self.fields).make()
        return ByteChange(self.random, self.scratch, self.lengths).make()

    def try_one(self):
        """`list` and a run that writes give answers that fit. So does `dump` at times, and `list` again if the run changed the volume."""
        path = self.scratch.path
        status = self.answer("list", path).status
        if self.random.random() < SHARE_OF_DUMPS:
            self.dump(path, status)
        ran = self.answer("run", writing_image(self.case), path, *OPTIONS)
        if status == 0 and (ran.err == b"refused 82\n" or not self.scratch.is_unchanged() and self.answer("list", path).status):
            raise Failure(f"the volume was sound, the run ends with {ran.status} {ran.err}, and the volume is damaged")
        self.figures["changed volumes"] += 1
        self.figures["changed volumes damaged"] += status == 4

    def dump(self, path, status):
        name = self.case.content[0].name if self.case.content else b"A"
        if self.answer("dump", "--", path, name).status not in ((0, 2) if status == 0 else (4,)):
            raise Failure(f"list ends with {status}, and dump otherwise")

    def answer(self, *words):
        ran = self.product.do(*words)
        check_answer(words[0], ran)
        return ran


def limit_memory():
    """The commands get so much memory, which is more than any of them needs."""
    _, most = resource.getrlimit(resource.RLIMIT_AS)
    resource.setrlimit(resource.RLIMIT_AS, (MOST_MEMORY, most))


def try_case(kind, program, seed, folder):
    """A case of 500 inputs."""
    inputs = KINDS[kind](program, seed, folder)
    try:
        inputs.try_all()
    except Failure as failure:
        return inputs, failure
    return inputs, None


KINDS = {"sources": Sources, "images": Images, "volumes": Volumes}
