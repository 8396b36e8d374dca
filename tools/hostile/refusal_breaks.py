"""What a program would do that answers wrongly without memory: refuse-memory must report each of these breaks."""
import shutil
import tempfile

from hostile import refusal_trials
from hostile.refusing import WITHOUT_WORDS, Refusing, count_up
from power_cuts.parallel import folder_in_memory
from power_cuts.product import NOTHING, Failure, Ran

COMPILE, RUN, _, LIST, DUMP, MIGRATION = refusal_trials.FEW
REFUSED = Ran(4, b"", b"refused 83\n")


class Broken(Refusing):
    """The program, of which each answer under refusals is changed by `change(product, ran, report, words)`."""

    def __init__(self, program, folder, library, change):
        super().__init__(program, folder, library)
        self.change = change

    def refuse(self, which, words, given=NOTHING):
        ran, report = super().refuse(which, words, given)
        return self.change(self, ran, report, words), report


def as_it_is(product, ran, report, words):
    return ran


def refuses_without_a_reason(product, ran, report, words):
    return ran if report.is_refused else REFUSED


def blames_the_device(product, ran, report, words):
    return ran._replace(err=b"refused 80\n") if ran.err == REFUSED.err else ran


def calls_it_wrong_words(product, ran, report, words):
    return WITHOUT_WORDS if ran.err == REFUSED.err and not report.is_early else ran


def ends_as_done(product, ran, report, words):
    return Ran(0, ran.out, b"") if ran.err == REFUSED.err else ran


def leaves_an_image(product, ran, report, words):
    if ran.err == REFUSED.err:
        with open(words[2], "ab") as image:
            image.write(b"COBIMG01")
    return ran


def shows_two_statuses_less(product, ran, report, words):
    return ran._replace(out=b"".join(ran.out.splitlines(True)[:-2])) if ran.err == REFUSED.err else ran


def cuts_a_line(product, ran, report, words):
    return ran._replace(out=ran.out[:-1]) if ran.err == REFUSED.err else REFUSED._replace(out=ran.out[:2])


def loses_all_statements(product, ran, report, words):
    if ran.status in (0, 4):
        shutil.copyfile(f"{product.folder}/volume", words[2])
    return ran


def writes_to_the_volume(product, ran, report, words):
    with open(words[1], "r+b") as volume:
        volume.seek(4095)
        volume.write(b"\1")
    return ran


def shows_a_part_of_the_list(product, ran, report, words):
    return ran._replace(out=b"R") if ran.err == REFUSED.err else ran


# Of each break: its name, the trial that has to report it, and what it changes.
BREAKS = [
    ("83 and nothing was refused", COMPILE, refuses_without_a_reason), ("80 in place of 83", RUN, blames_the_device),
    ("exit status 2 after a file was opened", COMPILE, calls_it_wrong_words), ("a refused run ends as done", RUN, ends_as_done),
    ("a refused compilation leaves an image", COMPILE, leaves_an_image), ("two statuses less are shown", RUN, shows_two_statuses_less),
    ("a line of a run is cut", RUN, cuts_a_line), ("the statements of a run are lost", RUN, loses_all_statements),
    ("list writes to the volume", LIST, writes_to_the_volume), ("a refused list shows a part", LIST, shows_a_part_of_the_list),
    ("a refused dump shows a part of a line", DUMP, cuts_a_line),
    ("a refused migration writes to the volume", MIGRATION, writes_to_the_volume),
    ("a refused migration ends as done", MIGRATION, ends_as_done),
]


def attempt(program, library, name, change):
    """What a trial reports, or nothing."""
    folder = folder_in_memory()
    try:
        count_up(refusal_trials.make(name, Broken(program, folder, library, change)).attempt, False)
    except Failure as failure:
        return str(failure)
    finally:
        shutil.rmtree(folder)
    return None


def self_test(program, library):
    """Tries the program as it is, each break, and a library that isn't there. How many were judged rightly, and how many not."""
    cases = [(f"the program as it is, {name}", name, as_it_is, library, False) for name in refusal_trials.FEW]
    cases += [(label, name, change, library, True) for label, name, change in BREAKS]
    cases.append(("the library is not in use", LIST, as_it_is, f"{tempfile.gettempdir()}/none.so", True))
    wrong = 0
    for label, name, change, loaded, must_fail in cases:
        failure = attempt(program, loaded, name, change)
        is_right = (failure is not None) == must_fail
        wrong += not is_right
        print(f"{'right' if is_right else 'WRONG'}: {label}: {failure or 'nothing is reported'}"[:220], flush=True)
    return len(cases) - wrong, wrong
