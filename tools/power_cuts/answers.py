"""The forms of the product's answers: what each command may write on standard error, by its exit status."""
import re

from power_cuts.product import Failure

SOURCE_FAULTS = rb"1[0-8]|20|3[01]|4\d|5\d|6\d|75"
FORMS = {
    "format": {0: rb"", 4: rb"refused (8[035])\n"},
    "compile": {0: rb"", 1: rb"[1-9]\d*:[1-9]\d*: fault (%s)\n" % SOURCE_FAULTS, 4: rb"refused (83|85)\n"},
    "run": {0: rb"", 3: rb"fault 9[0123] at line [1-9]\d*\n", 4: rb"refused (7[0-4]|8[01235])\n", 5: rb"budget\n"},
    # (the line is what the image says)
    "run of a changed image": {0: rb"", 3: rb"fault 9[0123] at line \d+\n", 4: rb"refused (7[0-4]|8[01235])\n", 5: rb"budget\n"},
    "list": {0: rb"", 4: rb"refused (8[0235])\n"},
    "dump": {0: rb"", 2: rb"error: .*\n", 4: rb"refused (8[0235])\n"},
}
# What only a host that fails, a lack of memory or a locked file brings.
UNPROVOKED = (b"refused 80\n", b"refused 83\n", b"refused 85\n")


def check_form(command, ran):
    """An answer has the form that the manual gives it."""
    form = FORMS[command].get(ran.status)
    if form is None or not re.fullmatch(form, ran.err):
        raise Failure(f"{command} ends with {ran.status} {ran.err[:200]}")
    if command in ("format", "compile") and ran.out:
        raise Failure(f"{command} prints {ran.out[:200]}")


def check_answer(command, ran):
    """An answer has its form, and blames neither the host nor memory, of which there is enough."""
    check_form(command, ran)
    if ran.err in UNPROVOKED:
        raise Failure(f"{command} ends with {ran.err}, and nothing failed")
