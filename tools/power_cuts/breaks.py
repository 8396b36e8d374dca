"""What a wrong program would have done: each break of a right run must be reported, or the tool shows nothing.

A break changes the traced calls of a run, or what the model says."""
import shutil
from dataclasses import replace

from power_cuts.cases import Case, Cuts, Still, make_earlier_volume
from power_cuts.product import Failure
from power_cuts.trace import Show, Sync, Write, trace_run


def self_test(program, seed, folder):
    """Of each break a pair: a line that says whether it was reported, and whether that is right."""
    for name, must_fail, attempt in (attempt for run in (Run, Migration) for attempt in run(Case(program, seed, folder)).attempts()):
        failure = reported(attempt)
        is_right = (failure is not None) == must_fail
        yield f"{'right' if is_right else 'WRONG'}: {name}: {failure or 'nothing is reported'}"[:220], is_right


def reported(attempt):
    try:
        attempt()
    except Failure as failure:
        return failure
    return None


class Run:
    """A traced run with many changes of its files."""

    def __init__(self, case):
        self.case = case
        case.make_volume()
        for _ in range(4):
            self.events = self.trace()
            case.content = self.program.states[-1]

    def trace(self):
        """The calls of a run of another random program."""
        self.program = self.case.next_program(40)
        self.case.compile(self.program)
        shutil.copyfile(self.case.volume, self.case.before)
        return self.trace_again()[1]

    def trace_again(self, fault=None):
        shutil.copyfile(self.case.before, self.case.volume)
        words = [self.case.product.program, "run", self.case.image, self.case.volume]
        return trace_run(words, self.case.volume, self.case.folder, fault)

    def run_in_doubt(self):
        """The calls of a run over a volume whose last root was written, but not synced."""
        syncs = len([event for event in self.trace() if isinstance(event, Sync)])
        ran, events = self.trace_again(("fdatasync", syncs))
        cuts = Cuts(self.case, self.program)
        cuts.follow(events)
        self.case.content = cuts.end(ran)
        return self.trace()

    def without_old_roots(self, events):
        """The calls without those that write the roots again when the volume is opened."""
        first = next(i for i, event in enumerate(events) if isinstance(event, Write) and event.sector >= 2)
        early = [i for i in range(first) if isinstance(events[i], Write)][:2]
        return [event for i, event in enumerate(events) if i not in early]

    def attempts(self):
        """What is tried: its name, whether it must be reported, and a function that tries it."""
        yield "the run as it was", False, lambda: self.follow(self.events)
        yield "no sync reaches the disk", True, lambda: self.follow([it for it in self.events if not isinstance(it, Sync)])
        yield "a root is written before the sync of its pages", True, lambda: self.follow(self.roots_early())
        yield "a page of the last commit is not written", True, lambda: self.follow(self.without_a_page())
        yield "a map sector of the last commit keeps one old byte", True, lambda: self.follow(self.with_an_old_map())
        yield "a status is shown before the commit", True, lambda: self.follow(self.shown_early())
        yield "the root of a commit is not written", True, lambda: self.follow(self.without_a_root())
        yield "the model has one row less", True, self.with_a_row_less
        yield "the model has one byte changed", True, self.with_another_byte
        doubt = self.run_in_doubt()
        yield "a run after a failed sync of a root", False, lambda: self.follow(doubt)
        yield "that run doesn't write the roots again", True, lambda: self.follow(self.without_old_roots(doubt))

    def follow(self, events):
        cuts = Cuts(self.case, self.program)
        cuts.follow(events)
        cuts.disk.close()

    def places(self, kind, test=lambda event: True):
        return [i for i, event in enumerate(self.events) if isinstance(event, kind) and test(event)]

    def last_root(self):
        """The place of the last root that was written, after the last page."""
        return self.places(Write, lambda event: event.sector < 2)[-1]

    def page_before(self, place):
        return [i for i in self.places(Write, lambda event: event.sector >= 2) if i < place][-1]

    def without(self, place):
        return self.events[:place] + self.events[place + 1:]

    def roots_early(self):
        return self.without([i for i in self.places(Sync) if i < self.last_root()][-1])

    def without_a_page(self):
        return self.without(self.page_before(self.last_root()))

    def with_an_old_map(self):
        """The last write before the last root leaves one byte as it was."""
        place = self.page_before(self.last_root())
        event = self.events[place]
        text = bytearray(event.text)
        at = next(i for i in range(3, 4096) if text[i])
        text[at] ^= 1
        return self.events[:place] + [event._replace(text=bytes(text))] + self.events[place + 1:]

    def shown_early(self):
        root = self.last_root()
        after = [i for i in self.places(Show) if i > root][0]
        return self.events[:root] + [self.events[after]] + self.without(after)[root:]

    def without_a_root(self):
        return self.without(self.last_root())

    def with_changed_states(self, change):
        states = self.program.states
        self.program.states = [tuple(change(file) for file in state) for state in states]
        try:
            self.follow(self.events)
        finally:
            self.program.states = states

    def with_a_row_less(self):
        self.with_changed_states(lambda file: replace(file, rows=file.rows[:-1]))

    def with_another_byte(self):
        self.with_changed_states(lambda file: replace(file, rows=tuple(
            row._replace(record=row.record[:-1] + b"~") for row in file.rows)))


class Migration(Run):
    """A traced migration of a volume with files."""

    def __init__(self, case):
        self.case = case
        make_earlier_volume(case)
        case.write(40)
        self.program = Still(case.content)
        shutil.copyfile(case.volume, case.before)
        self.events = trace_run([case.product.program, "migrate", case.volume], case.volume, case.folder)[1]

    def attempts(self):
        yield "the migration as it was", False, lambda: self.follow(self.events)
        yield "no sync of the migration reaches the disk", True, lambda: self.follow([it for it in self.events if not isinstance(it, Sync)])
        yield "the migration writes the root before the sync of its pages", True, lambda: self.follow(self.roots_early())
        yield "a page of the new catalog is not written", True, lambda: self.follow(self.without_a_page())
