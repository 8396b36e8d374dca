"""Jobs that are stopped at each call of the host, and run again with the same console lines.

A job is right if the run that reaches its end shows the same, and leaves the same files, whatever stops came before it."""
import os
import shutil
import subprocess
from collections import Counter, namedtuple
from itertools import product
from math import prod

from power_cuts.checking import essence, examine
from power_cuts.images import Disk
from power_cuts.product import Failure, Product, Ran
from power_cuts.trace import Show, Sync, Write, trace_run

# A program's source, the files with its console lines and with what its run shows, and the further words of `cobol run`.
Job = namedtuple("Job", "source given shown options")
KILLED = -9
# So many images of a moment are all tried.
MOST_IMAGES = 512
MOST_SECONDS = 60


class Restarts:
    """The runs of a job over copies of one volume. `again` is the part of the images whose second run is cut like the first."""

    def __init__(self, program, job, folder, random, again):
        self.product, self.job, self.folder, self.random, self.again = Product(program, folder), job, folder, random, again
        self.figures, self.image = Counter(), f"{folder}/image"
        with open(job.shown, "rb") as shown:
            self.shown = shown.read()
        ran = self.product.do("compile", job.source, self.image)
        if ran.status:
            raise Failure(f"compile: {ran}")

    def words(self, volume):
        return [self.product.program, "run", self.image, volume, *self.job.options]

    # Runs to the end

    def run(self, volume):
        """Runs the job to its end, and returns the files that it leaves."""
        with open(self.job.given, "rb") as given:
            ran = subprocess.run(self.words(volume), stdin=given, capture_output=True, timeout=MOST_SECONDS)
        self.compare_shown(Ran(ran.returncode, ran.stdout, ran.stderr))
        return self.files(volume)

    def compare_shown(self, ran):
        if ran != Ran(0, self.shown, b""):
            raise Failure(f"the run ends with {ran.status} {ran.err} and shows {ran.out[-2000:].decode('ascii', 'replace')}")

    def files(self, volume):
        found = examine(self.product, volume)
        if found.refused:
            raise Failure(f"list ends with {found.refused}")
        return essence(found.files)

    # Power cuts

    def cut(self, before, level=0):
        """Runs the job over a copy of the volume `before`. After each call it is run again over each image that a power cut may leave
        there. Some of these second runs are cut in the same way."""
        volume, path = f"{self.folder}/volume-{level}", f"{self.folder}/disk-{level}"
        shutil.copyfile(before, volume)
        shutil.copyfile(before, path)
        ran, events = trace_run(self.words(volume), volume, self.folder, given=self.job.given)
        self.compare_shown(ran)
        self.last = self.files(volume) if level == 0 else self.last
        self.figures["calls"] += len(events)
        self.follow(Disk(path, self.random, {}), events, path, level)

    def follow(self, disk, events, path, level):
        seen = set()
        for number, event in enumerate([None, *events]):
            disk.follow(event)
            for image in self.images(disk):
                total = disk.sum_of(image)
                if total not in seen:
                    seen.add(total)
                    with disk.holding(image):
                        self.run_again(path, level, f"call {number}, {type(event).__name__}, sectors {sorted(image)}")
        self.figures["images"] += len(seen)
        disk.close()

    def images(self, disk):
        """All images that a power cut may leave at this moment, or a choice of them if they are many."""
        choices = {sector: [None, *texts] for sector, texts in disk.pending.items()}
        if prod(map(len, choices.values())) > MOST_IMAGES:
            self.figures["moments with a choice of images"] += 1
            return list(disk.images())
        return [{sector: text for sector, text in zip(choices, chosen) if text is not None} for chosen in product(*choices.values())]

    def run_again(self, path, level, note):
        volume = f"{self.folder}/next-{level}"
        shutil.copyfile(path, volume)
        is_cut = level == 0 and self.random.random() < self.again
        try:
            self.compare_files(self.run(volume))
            if is_cut:
                self.figures["second runs with cuts"] += 1
                self.cut(path, level + 1)
        except Failure as failure:
            raise Failure(f"after a power cut, {note}: {failure}") from None

    def compare_files(self, files):
        if files != self.last:
            raise Failure("the second run leaves other files than a run without a stop")

    # Kills

    def kill(self, before):
        """Kills the run at each of its calls, and runs it again."""
        shutil.copyfile(before, f"{self.folder}/volume-0")
        _, events = trace_run(self.words(f"{self.folder}/volume-0"), f"{self.folder}/volume-0", self.folder, given=self.job.given)
        for call in calls_of(events):
            self.kill_at(before, call)

    def kill_at(self, before, call):
        volume = f"{self.folder}/killed"
        shutil.copyfile(before, volume)
        name, number = call
        strace = ["strace", "-f", "-qq", "-e", f"trace={name}", "-e", f"inject={name}:signal=KILL:when={number}", "-o", "/dev/null"]
        with open(self.job.given, "rb") as given:
            ran = subprocess.run(strace + self.words(volume), stdin=given, capture_output=True, timeout=MOST_SECONDS)
        self.figures["kills" if ran.returncode == KILLED else "runs that had ended"] += 1
        try:
            self.compare_files(self.run(volume))
        except Failure as failure:
            raise Failure(f"after a kill at call {number} of {name}: {failure}") from None


def calls_of(events):
    """The calls of the host that the events show, each as its name and its number among those of its name. A call that wrote several
    sectors is several events, so there are at most as many calls."""
    names = {Write: "pwrite64", Sync: "fdatasync", Show: "write"}
    for kind, name in names.items():
        count = sum(isinstance(event, kind) for event in events)
        yield from ((name, number) for number in range(1, count + 1))


def check_job(program, job, before, folder, random, again):
    """Cuts and kills a job over a volume, and returns the figures. A `Failure` says what is wrong."""
    restarts = Restarts(program, job, folder, random, again)
    restarts.cut(before)
    restarts.kill(before)
    shutil.copyfile(before, f"{folder}/after")
    restarts.run(f"{folder}/after")
    os.replace(f"{folder}/after", before)
    return restarts.figures
