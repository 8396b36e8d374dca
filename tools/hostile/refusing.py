"""The program's commands with allocations refused, by the library of refuse.c.

`Which` says which allocations are refused: the N-th one alone, or that one and all later ones. `Refusing.run` runs a command so and
returns its answer, and what the library reports of it."""
import os
from collections import namedtuple
from itertools import count

from power_cuts.product import ENVIRONMENT, NOTHING, Failure, Product, Ran, read

SOURCE = f"{os.path.dirname(os.path.abspath(__file__))}/refuse.c"
WITHOUT_MEMORY = (4, b"refused 83\n")
# Arguments that memory has no room for are no text that the program knows.
WITHOUT_WORDS = Ran(2, b"", b"error: an argument isn't text\n")

Which = namedtuple("Which", "number and_later")
# Whether the library refused an allocation, whether that was before the program opened a file, and how many calls it counted.
Report = namedtuple("Report", "is_refused is_early calls")


class Refusing(Product):
    """The program, with this library."""

    def __init__(self, program, folder, library):
        super().__init__(program, folder)
        self.folder, self.library, self.report = folder, library, f"{folder}/report"

    def refuse(self, which, words, given=NOTHING):
        """The answer of a command with these allocations refused, and the library's report. `given` is its standard input."""
        if os.path.exists(self.report):
            os.remove(self.report)
        word = f"{which.number}{'+' if which.and_later else ''}"
        environment = {**ENVIRONMENT, "LD_PRELOAD": self.library, "REFUSE": word, "REFUSE_REPORT": self.report}
        ran = self.run(words, given, environment)
        return ran, self.read_report(ran)

    def read_report(self, ran):
        if not os.path.exists(self.report):
            raise Failure(f"the library isn't in use, or the program ended by {ran.status} without an exit: {ran.err[:200]}")
        lines = read(self.report).split(b"\n")
        calls = [int(line.split()[1]) for line in lines if line.startswith(b"calls ")]
        if not calls:
            raise Failure(f"the program didn't end by an exit, but with {ran.status} {ran.err[:200]}")
        return Report(lines[0].startswith(b"refused"), lines[0] == b"refused early", calls[0])


def count_up(attempt, and_later):
    """Tries with the first allocation refused, with the second one, and so on, until nothing was refused. How many were refused."""
    for number in count(1):
        if not attempt(Which(number, and_later)):
            return number - 1
    return None


def judge(command, ran, report, whole):
    """How a command ended: `whole`, as without a refusal; `refused`; or `no command`, while its arguments were read."""
    if ran == whole:
        return "whole"
    if report.is_refused and (ran.status, ran.err) == WITHOUT_MEMORY and whole.out.startswith(ran.out):
        return "refused"
    if report.is_early and ran == WITHOUT_WORDS:
        return "no command"
    cause = "" if report.is_refused else "nothing was refused, and "
    raise Failure(f"{cause}{command} ends with {ran.status} {ran.err[:200]}, and prints {ran.out[:200]}")
