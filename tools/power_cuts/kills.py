"""Runs that are killed at random moments. What the killed process wrote is in the host's memory, so the volume holds all of it."""
import shutil
import subprocess
import time

from power_cuts.cases import Case
from power_cuts.checking import examine, holds
from power_cuts.product import Failure


def run_kills(program, seed, folder):
    """A case of ten programs, each of which is killed once. The next one goes on with the volume that is left."""
    case = Case(program, seed, folder)
    try:
        case.make_volume()
        for _ in range(10):
            kill_one(case)
    except Failure as failure:
        return case, failure
    return case, None


def kill_one(case):
    program = case.next_program(case.random.choice([20, 60, 150]))
    case.compile(program)
    shutil.copyfile(case.volume, case.before)
    began = time.perf_counter()
    ran = case.product.do("run", case.image, case.volume)
    seconds = time.perf_counter() - began
    case.note = "a run that is not killed"
    case.check_end(ran, program)
    shutil.copyfile(case.before, case.volume)
    shown = killed_after(case, seconds * case.random.random())
    case.note = f"killed after {len(shown)} shown bytes"
    if not program.shown.startswith(shown):
        raise Failure("what was shown isn't the beginning of what the program shows")
    states = program.states_after(len(shown))
    found = examine(case.product, case.volume)
    fitting = [state for state in states if holds(found, program.states[state])]
    if not fitting:
        raise Failure(f"recovery finds {found.listing}, which are the files of none of the states {states}")
    case.content = program.states[fitting[0]]


def killed_after(case, seconds):
    """Runs the program, kills it, and returns what it had shown."""
    words = [case.product.program, "run", case.image, case.volume]
    with subprocess.Popen(words, stdin=subprocess.DEVNULL, stdout=subprocess.PIPE, stderr=subprocess.DEVNULL) as child:
        time.sleep(seconds)
        child.kill()
        shown = child.stdout.read()
    case.figures["kills" if child.returncode == -9 else "runs that had ended"] += 1
    return shown
