"""Runs of an image with a byte changed, or cut short, over a volume with a file."""
import os
from collections import Counter

from hostile.alternate_keys import DATA, ROW
from repository import ROOT
from power_cuts.answers import check_answer
from power_cuts.checking import examine
from power_cuts.product import Failure, read
from power_cuts.scratch import Scratch

IMAGES = f"{ROOT}/rows/images"
# The sources whose images are changed, and those of a brief run.
ROWS = {"loops": f"{DATA}/perform_varying", "PERFORM": f"{DATA}/perform_overlapping_ranges",
        "conditions": f"{DATA}/condition_names_by_range", "INSPECT": f"{DATA}/inspect_counters", "files": f"{DATA}/duplicates_in_order"}
BRIEF = {"HELLO": f"{IMAGES}/hello", "control": f"{IMAGES}/control", "file": f"{IMAGES}/file"}
SECTORS, BUDGET = "1024", "3000"
MARK, VERSION = 8, 7
# In HELLO's image only this byte, which ends a run as fault 92, makes a run that does not reach its end.
UNHEARD = 47
REFUSALS = tuple(b"refused %d\n" % number for number in range(70, 75))


def others(byte):
    """What a byte is changed to: each bit turned, one more, one less, none set and all set."""
    return sorted({*(byte ^ 1 << bit for bit in range(8)), (byte + 1) % 256, (byte - 1) % 256, 0, 255} - {byte})


class ImageRuns:
    """An image and a volume, both in a folder. `figures` counts the runs by their ends."""

    def __init__(self, product, folder, source):
        row = os.path.basename(source)
        self.product, self.row, self.figures, self.note = product, row, Counter(), row
        self.image, self.volume = f"{folder}/image", f"{folder}/volume"
        self.must("compile", f"{ROW}.cob", self.image)
        self.must("format", self.volume, SECTORS)
        self.must("run", self.image, self.volume)
        self.must("compile", f"{source}.cob", self.image)
        self.text = read(self.image)
        self.file = os.open(self.image, os.O_RDWR)
        self.scratch = Scratch(self.volume, f"{folder}/cut")

    def must(self, *words):
        ran = self.product.do(*words)
        if ran.status:
            raise Failure(f"{words[0]}: {ran}")

    def change_byte(self, at, is_brief=False):
        """Runs the image with a byte changed to each other value, or in a brief run of another program than HELLO to twelve of them."""
        byte = self.text[at]
        is_hello = self.row == "hello"
        for value in others(byte) if is_brief and not is_hello else [(byte + more) % 256 for more in range(1, 256)]:
            os.pwrite(self.file, bytes([value]), at)
            ran = self.try_image(f"byte {at} of the image of {self.row} is {value} and not {byte}")
            # (with a 2 the mark is that of an image with parts, which none of these has)
            if at < MARK and ran.err != REFUSALS[2 if (at, value) == (VERSION, ord("2")) else 0]:
                raise Failure(f"another mark ends with {ran.status} {ran.err}")
            if is_hello and ran.status not in (0, 4) and value != UNHEARD:
                raise Failure(f"a run ends with {ran.status} {ran.err}")
        os.pwrite(self.file, self.text[at:at + 1], at)

    def cut(self, length):
        """Runs the first bytes of the image: 70 if they aren't the mark, or else 71 or 72."""
        os.ftruncate(self.file, length)
        ran = self.try_image(f"the image of {self.row} is cut to {length} bytes")
        if ran.err not in (REFUSALS[:1] if length < MARK else REFUSALS[1:3]):
            raise Failure(f"a part of an image ends with {ran.status} {ran.err}")
        os.pwrite(self.file, self.text, 0)

    def try_image(self, note):
        self.note = note
        ran = self.product.do("run", self.image, self.scratch.path, "--budget", BUDGET)
        check_answer("run of a changed image", ran)
        self.figures["runs"] += 1
        self.figures[ran.err.decode().strip() if ran.status == 4 else f"exit status {ran.status}"] += 1
        if ran.err == b"refused 82\n":
            raise Failure("a run over a sound volume reports damage")
        if not self.scratch.is_unchanged():
            self.examine_volume(ran)
        return ran

    def examine_volume(self, ran):
        """The run wrote to the volume: it was no refused image, and the volume still holds files."""
        if ran.err in REFUSALS:
            raise Failure(f"the image is {ran.err.decode().strip()}, and the volume is another one")
        if examine(self.product, self.scratch.path).refused:
            raise Failure("the volume is damaged after the run")
        self.figures["runs that changed files"] += 1
        self.scratch.build()
