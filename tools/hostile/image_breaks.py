"""What a program would do that takes a changed image wrongly: check-images must report each of these breaks."""
import shutil
from functools import partial

from hostile.image_runs import REFUSALS, ROWS, ImageRuns
from power_cuts.parallel import folder_in_memory
from power_cuts.product import Failure, Product, Ran

# Places of the image with files that are tried: its mark, a count, a byte of working storage, and its code.
PLACES = (0, 15, 24, 700)


class Broken(Product):
    """The program, of which each answer of a run with a budget is changed by `change(ran, words)`."""

    change = None

    def do(self, *words):
        ran = super().do(*words)
        return self.change(ran, words) if self.change and "--budget" in words else ran


def write_to_volume(at, text, ran, words):
    with open(words[2], "r+b") as volume:
        volume.seek(at)
        volume.write(text)
    return ran


def if_refused(change):
    return lambda ran, words: change(ran, words) if ran.err in REFUSALS else ran


def if_run(change):
    return lambda ran, words: change(ran, words) if ran.status != 4 else ran


BREAKS = [
    ("a signal ends a run", if_run(lambda ran, words: Ran(-11, b"", b""))),
    ("an exit status that the product doesn't have", if_run(lambda ran, words: ran._replace(status=101))),
    ("an exit status without its line", if_refused(lambda ran, words: ran._replace(err=b""))),
    ("lack of memory", if_refused(lambda ran, words: ran._replace(err=b"refused 83\n"))),
    ("damage of a sound volume", if_refused(lambda ran, words: ran._replace(err=b"refused 82\n"))),
    ("a cut image runs", if_refused(lambda ran, words: Ran(0, b"", b""))),
    ("a refused image changes an unused sector", if_refused(partial(write_to_volume, 4096 * 1000, b"\1"))),
    ("a run damages the volume", if_run(partial(write_to_volume, 16, b"\0\0\0\0"))),
]


def attempt(program, change):
    """What the runs report, or nothing."""
    folder = folder_in_memory()
    try:
        product = Broken(program, folder)
        runs = ImageRuns(product, folder, ROWS["files"])
        product.change = change
        for place in PLACES:
            runs.change_byte(place)
            runs.cut(place)
    except Failure as failure:
        return str(failure)
    finally:
        shutil.rmtree(folder)
    return None


def self_test(program):
    """Tries the program as it is, and each break. How many were judged rightly, and how many not."""
    cases = [("the program as it is", None, False)] + [(name, change, True) for name, change in BREAKS]
    wrong = 0
    for name, change, must_fail in cases:
        failure = attempt(program, change)
        is_right = (failure is not None) == must_fail
        wrong += not is_right
        print(f"{'right' if is_right else 'WRONG'}: {name}: {failure or 'nothing is reported'}"[:220], flush=True)
    return len(cases) - wrong, wrong
