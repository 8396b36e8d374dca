"""What a program would do that reads a damaged volume wrongly: check-volumes must report each of these breaks.

A break changes the answers of the program, or takes one rule from the reader, so that the program is the one that is stricter."""
import shutil

from hostile.volume_runs import DAMAGED, ChangedVolumes, make_volume
from power_cuts import volume
from power_cuts.cases import Case
from power_cuts.parallel import folder_in_memory
from power_cuts.product import Failure, Product, Ran

CHANGES, SEEDS = 150, 12


class Broken(Product):
    """The program, of which each answer of the commands `names` is changed by `change(ran, words)`."""

    names, change = (), None

    def do(self, *words):
        ran = super().do(*words)
        return self.change(ran, words) if words[0] in self.names else ran


def write_a_byte(path):
    with open(path, "r+b") as file:
        file.seek(4096 * 900)
        file.write(b"\1")


def list_takes_damage(ran, words):
    return Ran(0, b"", b"") if ran == DAMAGED else ran


def list_reports_damage(ran, words):
    return DAMAGED if ran.status == 0 else ran


def list_writes(ran, words):
    write_a_byte(words[1])
    return ran


def dump_takes_damage(ran, words):
    return Ran(2, b"", b"error: the volume has no such file\n") if ran == DAMAGED else ran


def run_shows_a_row_less(ran, words):
    return ran._replace(out=b"".join(ran.out.splitlines(True)[:-1])) if ran.status == 0 else ran


def run_shows_before_it_refuses(ran, words):
    return ran._replace(out=b"00\n") if ran == DAMAGED else ran


def refused_run_writes(ran, words):
    if ran == DAMAGED:
        write_a_byte(words[2])
    return ran


def migration_takes_damage(ran, words):
    return Ran(0, b"", b"") if ran == DAMAGED else ran


def refused_migration_writes(ran, words):
    if ran == DAMAGED:
        write_a_byte(words[1])
    return ran


def migration_loses_a_root(ran, words):
    with open(words[1], "r+b") as file:
        file.write(bytes(4096))
    return ran


def run_traps(ran, words):
    return Ran(-4, b"", b"") if ran == DAMAGED else ran


BREAKS = [
    ("list takes a damaged volume", ("list",), list_takes_damage), ("list reports damage of a sound one", ("list",), list_reports_damage),
    ("list writes", ("list",), list_writes), ("dump takes a damaged volume", ("dump",), dump_takes_damage),
    ("a run shows a row less", ("run",), run_shows_a_row_less), ("a refused run shows something", ("run",), run_shows_before_it_refuses),
    ("a refused run writes", ("run",), refused_run_writes), ("a signal ends a run", ("run",), run_traps),
    ("a migration takes a damaged volume", ("migrate",), migration_takes_damage),
    ("a refused migration writes", ("migrate",), refused_migration_writes),
    ("a migration loses a root", ("migrate",), migration_loses_a_root),
]
RULES = ("ascends", "is_index", "reaches_all")


def attempt(program, seeds, names=(), change=None):
    """What the changes of some volumes report, or nothing."""
    for seed in seeds:
        failure = attempt_of_seed(program, seed, names, change)
        if failure:
            return failure
    return None


def attempt_of_seed(program, seed, names, change):
    folder = folder_in_memory()
    try:
        case = Case(program, seed, folder)
        case.product = Broken(program, folder)
        make_volume(case)
        volumes = ChangedVolumes(case)
        case.product.names, case.product.change = names, change
        for _ in range(CHANGES):
            volumes.change_and_compare()
    except Failure as failure:
        return str(failure)
    finally:
        shutil.rmtree(folder)
    return None


def attempt_without(program, seeds, rule):
    """What is reported if the reader takes anything for what a rule asks."""
    old = getattr(volume, rule)
    setattr(volume, rule, lambda *_: True)
    try:
        return attempt(program, seeds)
    finally:
        setattr(volume, rule, old)


def self_test(program, seed):
    """Tries the program as it is, and each break. How many were judged rightly, and how many not."""
    seeds = range(seed, seed + SEEDS)
    cases = [("the program as it is", False, attempt(program, seeds[:2]))]
    cases += [(name, True, attempt(program, seeds, names, change)) for name, names, change in BREAKS]
    cases += [(f"the reader takes anything for what `{rule}` asks", True, attempt_without(program, seeds, rule)) for rule in RULES]
    wrong = 0
    for name, must_fail, failure in cases:
        is_right = (failure is not None) == must_fail
        wrong += not is_right
        print(f"{'right' if is_right else 'WRONG'}: {name}: {failure or 'nothing is reported'}"[:220], flush=True)
    return len(cases) - wrong, wrong
