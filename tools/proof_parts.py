"""The parts that a check makes, and the time that each took. A check writes one file after the other, so a part took the time since the
file before it. That holds for a check from nothing with one job."""
import collections
import re

# What is made of a function is under its name in modules of these names.
KINDS = ("Lts", "Proof", "Tie", "Layout", "Answers", "Invariants", "Goals", "Kinds", "Named", "Reads", "Code", "Given")


def module(file):
    """The module that a file is of."""
    match = re.match(r"Rattle-\w+-(.*?)(\.decls)?\.oantt$", file)
    return match[1] if match else file


def function(name):
    """What a module is made of, and which kind of module it is."""
    words = name.split(".")
    for place, word in enumerate(words):
        if word.split("-")[0] in KINDS:
            return ".".join(words[:place]), word.split("-")[0]
    return name, "other"


class Seconds:
    """The seconds of each module, function and kind of module, and of the kinds of each function, from pairs of a time and the file that
    was done then."""

    def __init__(self, files):
        self.modules, self.functions, self.kinds = (collections.Counter() for _ in range(3))
        self.spent_on = collections.defaultdict(collections.Counter)
        files = sorted(files)
        before = files[0][0] if files else 0
        for time, file in files:
            name = module(file)
            owner, kind = function(name)
            self.modules[name] += time - before
            self.functions[owner] += time - before
            self.kinds[kind] += time - before
            self.spent_on[owner][kind] += time - before
            before = time
