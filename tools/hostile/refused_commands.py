"""Each command of the program with each allocation refused in turn: what it answers, and what it leaves.

A `Trial` is a command with what it works on. `Trial.attempt` runs it once and says whether an allocation was refused; it raises a
Failure if the answer, or what was left, isn't one of a program that ran out of memory."""
import os
import shutil
from collections import Counter

from hostile.reading import ReadingProgram
from hostile.refusing import judge
from power_cuts.checking import examine, files_of, holds, summary
from power_cuts.product import NOTHING, Failure, Ran, read

SECTORS = "1024"
OLD = b"what the file held before\n"


class Trial:
    """A command without a refusal: its words, its standard input, and its whole answer."""

    given = NOTHING

    def __init__(self, product, name, *words):
        self.product, self.name, self.words, self.command = product, name, words, words[0]
        self.figures, self.note = Counter(), name
        self.prepare(1)
        self.whole = product.run(words, self.given)

    def prepare(self, number):
        """Makes what the command works on."""

    def attempt(self, which):
        self.note = f"{self.name}, allocation {which.number}{' and all later ones' if which.and_later else ''} refused"
        self.prepare(which.number)
        ran, report = self.product.refuse(which, self.words, self.given)
        end = judge(self.command, ran, report, self.whole)
        self.examine(ran, end)
        self.figures[end] += report.is_refused
        return report.is_refused

    def examine(self, ran, end):
        """Looks at what the command left."""


class MakingTrial(Trial):
    """A command that makes a file: `compile`, `format`. If it refuses, the file has its old bytes. If there was none, there is none; but
    `format` may leave an empty file."""

    def __init__(self, product, name, *words, made):
        self.made, self.expected = f"{product.folder}/{made}", None
        super().__init__(product, name, *[self.made if word == made else word for word in words])
        if self.whole != Ran(0, b"", b""):
            raise Failure(f"{name}: {self.whole}")
        self.expected = read(self.made)

    def prepare(self, number):
        if os.path.exists(self.made):
            os.remove(self.made)
        self.before = OLD if number % 2 else None
        if self.before:
            with open(self.made, "wb") as file:
                file.write(self.before)

    def examine(self, ran, end):
        left = read(self.made) if os.path.exists(self.made) else None
        is_empty = self.command == "format" and end == "refused" and self.before is None and left == b""
        if left != (self.expected if end == "whole" else self.before) and not is_empty:
            raise Failure(f"{self.command} ends with {ran.status} {ran.err}, and leaves {left if left is None else left[:100]}")


class VolumeTrial(Trial):
    """A command that only reads a volume: `list`, `dump`. It shows the beginning of its lines at most, and changes no byte."""

    def __init__(self, product, name, volume, *words):
        self.volume, self.before = volume, read(volume)
        super().__init__(product, name, *words)
        if self.whole.status or not self.whole.out:
            raise Failure(f"{name}: {self.whole}")

    def examine(self, ran, end):
        if ran.out and end != "whole" and (self.command == "list" or not ran.out.endswith(b"\n")):
            raise Failure(f"{self.command} is refused, and shows {ran.out[:200]}")
        if read(self.volume) != self.before:
            raise Failure(f"{self.command} changes the volume")


class MigrationTrial(Trial):
    """`migrate` over a copy of a volume with the earlier mark. If it is refused, the copy has its old bytes."""

    def __init__(self, product, name, volume):
        self.original, self.volume, self.expected = volume, f"{product.folder}/copy", None
        super().__init__(product, name, "migrate", self.volume)
        if self.whole != Ran(0, b"", b""):
            raise Failure(f"{name}: {self.whole}")
        self.expected = read(self.volume)

    def prepare(self, number):
        shutil.copyfile(self.original, self.volume)

    def examine(self, ran, end):
        if read(self.volume) != (self.expected if end == "whole" else read(self.original)):
            raise Failure(f"migrate ends with {ran.status} {ran.err}, and leaves {summary(files_of(self.volume))}")


class ConsoleTrial(Trial):
    """A run of a program without files that reads the console. It is refused before it shows anything, and leaves the volume alone."""

    def __init__(self, product, name, volume, image, given):
        self.volume, self.before, self.given = volume, read(volume), given
        super().__init__(product, name, "run", image, volume)
        if self.whole.status or not self.whole.out:
            raise Failure(f"{name}: {self.whole}")

    def examine(self, ran, end):
        if end != "whole" and ran.out:
            raise Failure(f"the run is refused in the middle, and shows {ran.out[:200]}")
        if read(self.volume) != self.before:
            raise Failure("a program without files changes the volume")


class RunTrial(Trial):
    """A run of a program over a copy of a volume."""

    def __init__(self, product, name, volume, image, program):
        self.original, self.volume, self.program = volume, f"{product.folder}/copy", program
        self.reader, self.read_by, self.before = f"{product.folder}/reader", None, read(volume)
        super().__init__(product, name, "run", image, self.volume)
        if (self.whole.status, self.whole.out) != (0, program.shown):
            raise Failure(f"{name}: the run ends with {self.whole.status} {self.whole.err}, and shows {self.whole.out[-200:]}")

    def prepare(self, number):
        shutil.copyfile(self.original, self.volume)

    def examine(self, ran, end):
        """The volume holds the files after the statements whose statuses were shown, or after one more."""
        found = examine(self.product, self.volume)
        if end == "no command":
            states = [0]
        elif end == "whole":
            states = [len(self.program.states) - 1]
        else:
            states = self.states_after(len(ran.out))
        if not any(holds(found, self.program.states[state]) for state in states):
            raise Failure(f"after {len(ran.out)} shown bytes the volume holds {summary(found.files)}, the files of none of {states}")
        if end == "no command" and read(self.volume) != self.before:
            raise Failure("the arguments weren't read, and the volume is another one")
        self.read_again(found.files)

    def states_after(self, count):
        """The states that a refusal may leave. It comes before the first statement or within one, when all before it was shown."""
        if count not in self.program.begun:
            raise Failure(f"the run is refused after {count} shown bytes, in the middle of a DISPLAY")
        return self.program.states_after(count)

    def read_again(self, files):
        """A later run finds the same files in all their orders."""
        if not files:
            return
        program = ReadingProgram(files)
        self.compile(program.text)
        ran = self.product.do("run", f"{self.reader}.image", self.volume)
        if ran != Ran(0, program.shown(files), b""):
            raise Failure(f"a later run that reads all files ends with {ran.status} {ran.err}")

    def compile(self, text):
        """Makes the image of the reading program, if it is another one than before."""
        if text == self.read_by:
            return
        with open(f"{self.reader}.cob", "wb") as file:
            file.write(text)
        compiled = self.product.do("compile", f"{self.reader}.cob", f"{self.reader}.image")
        if compiled != Ran(0, b"", b""):
            raise Failure(f"the program that reads all files isn't compiled: {compiled}")
        self.read_by = text
