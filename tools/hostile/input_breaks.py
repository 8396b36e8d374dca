"""Programs that give wrong answers at times, in place of `cobol`: fuzz must report each of them."""
import os
import shutil

from hostile.inputs import KINDS, try_case
from power_cuts.loading import loading
from power_cuts.parallel import folder_in_memory

SEEDS = 6
# A shell script that runs the program, and then does something else in place of its answer in some cases.
SCRIPT = """#!/bin/sh
'{program}' "$@" 2>"$0.err"
status=$?
{wrong}
cat "$0.err" >&2
exit $status
"""
# What each script does wrong, the kind of inputs that shows it, and its lines.
BREAKS = [
    ("a signal ends compile", "sources", '[ "$1 $status" != "compile 1" ] || kill -SEGV $$'),
    ("a fault of the language's numbers that there isn't", "sources", 'sed -i "s/fault 30/fault 34/" "$0.err"'),
    ("a fault without its place", "sources", 'sed -i "s/^[0-9]*:[0-9]*: //" "$0.err"'),
    ("a refused source leaves an image", "sources", '[ "$1 $status" != "compile 1" ] || echo >"$3"'),
    ("an exit status that the product doesn't have", "images", '[ "$1 $status" != "run 4" ] || status=101'),
    ("a panic's message", "images", '[ "$1 $status" != "run 4" ] || echo "thread main panicked" >"$0.err"'),
    ("lack of memory without a reason", "images", 'sed -i "s/refused 72/refused 83/" "$0.err"'),
    ("damage of a sound volume", "images", '[ "$1" != run ] || sed -i "s/refused 7./refused 82/" "$0.err"'),
    ("list takes a damaged volume", "volumes", '[ "$1 $status" != "list 4" ] || { status=0; : >"$0.err"; }'),
    ("a run damages a volume", "volumes",
     '[ "$4 $status" != "--budget 0" ] || printf "\\0\\0\\0\\0" | dd of="$3" bs=1 seek=16 conv=notrunc status=none'),
]


def attempt(program, kind, seed, wrong):
    """What some cases of a script report, or nothing."""
    folder = folder_in_memory()
    try:
        script = f"{folder}/script"
        with open(script, "w", encoding="utf-8") as file:
            file.write(SCRIPT.format(program=program, wrong=wrong))
        os.chmod(script, 0o755)
        failures = (try_case(kind, script, seed + i, folder)[1] for i in range(SEEDS if wrong else 1))
        return next((str(failure) for failure in failures if failure), None)
    finally:
        shutil.rmtree(folder)


def differs_loaded(program, kind, seed):
    """How a case of the loaded program differs from the same case in which each command has a process of its own, or nothing."""
    found = []
    for is_loaded in (True, False):
        folder = folder_in_memory()
        with loading(is_loaded):
            case, failure = try_case(kind, program, seed, folder)
        found.append((case.figures, failure))
        shutil.rmtree(folder)
    return None if found[0] == found[1] else f"{found[0]} and {found[1]}"


def self_test(program, seed):
    """Tries the program as it is with each kind of inputs, and each script. How many were judged rightly, and how many not."""
    cases = [(f"the program as it is, {kind}", kind, "", False) for kind in ("sources", "images", "volumes")]
    cases += [(name, kind, wrong, True) for name, kind, wrong in BREAKS]
    failed = 0
    for name, kind, wrong, must_fail in cases:
        failure = attempt(program, kind, seed, wrong)
        is_right = (failure is not None) == must_fail
        failed += not is_right
        print(f"{'right' if is_right else 'WRONG'}: {name}: {failure or 'nothing is reported'}"[:220], flush=True)
    differing = [kind for kind in KINDS if differs_loaded(program, kind, seed)]
    print(f"{'WRONG' if differing else 'right'}: loaded, and in processes of their own, commands answer the same {' '.join(differing)}", flush=True)
    return len(cases) - failed + (not differing), failed + bool(differing)
