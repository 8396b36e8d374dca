"""Cases of a tool, in several processes, each with a seed and a folder of its own.

`words` has the tool's options: `program`, `seed`, `jobs`, and `keep`, the folder for what fails."""
import os
import shutil
import tempfile
import time
from collections import Counter
from concurrent.futures import FIRST_COMPLETED, ProcessPoolExecutor, wait
from concurrent.futures.process import BrokenProcessPool

from power_cuts.cases import keep

MEMORY = "/dev/shm"
MOST_FAILURES = 10


def folder_in_memory():
    """A new folder, in memory if the host has room there."""
    return tempfile.mkdtemp(prefix="cobol-tools-", dir=MEMORY if os.access(MEMORY, os.W_OK) else None)


def work(task, words, seed):
    """One case in a folder of its own: its figures, and what failed with the folder where it is kept."""
    folder = folder_in_memory()
    try:
        case, failure = task(words.program, seed, folder)
        kept = keep(case, failure, words.keep) if failure else None
        return case.figures, failure and f"seed {seed}: {case.note}: {failure}\n    kept in {kept}"
    finally:
        shutil.rmtree(folder)


class Cases:
    """Cases of rising seeds, until a figure has reached a count, or so many minutes have passed."""

    def __init__(self, task, words, name, count, minutes):
        self.task, self.words, self.name, self.count, self.minutes = task, words, name, count, minutes
        self.figures, self.failures, self.seed, self.began = Counter(), 0, words.seed, time.time()

    def run(self):
        """Runs all cases, prints their figures, and returns how many failed."""
        try:
            self.run_in_pool()
        except BrokenProcessPool:
            self.add(Counter(), f"a process of this tool ended in one of the {self.words.jobs} last seeds before {self.seed}")
        print(f"{self.summary()}; {self.failures} failed; {time.time() - self.began:.0f} seconds", flush=True)
        return self.failures

    def run_in_pool(self):
        with ProcessPoolExecutor(self.words.jobs) as pool:
            running = self.begun(pool, set())
            while running:
                running = self.begun(pool, self.take_ended(running))

    def take_ended(self, running):
        """Adds the figures of the cases that have ended, and returns those that still run."""
        done, running = wait(running, return_when=FIRST_COMPLETED)
        for future in done:
            self.add(*future.result())
        return running

    def begun(self, pool, running):
        """The running cases, and new ones if more are needed."""
        while len(running) < self.words.jobs and self.is_more_wanted():
            running.add(pool.submit(work, self.task, self.words, self.seed))
            self.seed += 1
        return running

    def is_more_wanted(self):
        is_late = self.minutes is not None and time.time() - self.began >= 60 * self.minutes
        return self.figures[self.name] < self.count and self.failures < MOST_FAILURES and not is_late

    def add(self, figures, failure):
        self.figures += figures
        if failure:
            self.failures += 1
            print(f"FAILED: {failure}", flush=True)

    def summary(self):
        figures = [f"{count:,} {name}" for name, count in sorted(self.figures.items())]
        return f"seeds {self.words.seed} to {self.seed - 1}: {', '.join(figures)}"


def run_cases(task, words, name, count, minutes=None):
    """Runs cases until the figure `name` has reached this count, or so many minutes have passed, and returns how many failed."""
    return Cases(task, words, name, count, minutes).run()
