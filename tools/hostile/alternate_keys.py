"""The program of a row with an alternate key with duplicates, and what its statements do to a volume by the model."""
import os

from power_cuts.model import Connector, Files
from power_cuts.product import Failure, read
from power_cuts.programs import Program, Step
from power_cuts.volume import Description, Key

DATA = f"{os.path.dirname(os.path.dirname(os.path.dirname(os.path.abspath(__file__))))}/crates/acceptance/data"
ROW = f"{DATA}/duplicates_in_order"
NAME, DESCRIPTION = b"ROWS", Description("indexed", 2, Key(0, 1), (Key(1, 1, True),))
# The record area before a statement if it changes there, the statement, and whether the key is shown after the status.
STATEMENTS = [(None, ("open", "I-O"), False), (b"1X", ("write",), False), (b"2X", ("write",), False), (b"3X", ("write",), False),
              (b"1Y", ("rewrite",), False), (b"1X", ("rewrite",), False), (b"1X", ("start", "=", 0), False),
              (None, ("read_next",), True), (None, ("read_next",), True), (None, ("read_next",), True),
              (None, ("read_next",), False), (None, ("read_next",), False)]


class AlternateKeys(Program):
    """The row's program over a volume with these files. It has what a `Program` has after `finish`."""

    def __init__(self, content=()):
        self.text = read(f"{ROW}.cob")
        self.files = Files.of(content)
        self.connector = Connector(self.files, NAME, DESCRIPTION, "dynamic", optional=True)
        self.states, self.steps = [self.files.now()], []
        for area, words, shows_key in STATEMENTS:
            self.add(area, words, shows_key)
        self.add_up()

    def add(self, area, words, shows_key):
        if area:
            self.connector.area[:] = area
        status = self.connector.do(*words).encode()
        self.states.append(self.files.now())
        self.steps.append(Step(1, status + (bytes(self.connector.area[:1]) if shows_key else b"") + b"\n"))

    def compare_with_row(self):
        """The model's run over an empty volume is the one that the row's files give."""
        notes = b"".join(b"0 " + step.shown[:2] + b"\n" for step in self.steps)
        if self.shown != read(f"{ROW}.out") or notes != read(f"{ROW}.notes"):
            raise Failure(f"the model of {ROW} isn't the row")
