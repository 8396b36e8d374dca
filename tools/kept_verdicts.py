"""Verdicts on wrong bodies that earlier runs on this machine found, by the sum of all that each stands on."""
import hashlib
import os

from repository import ROOT, SOURCES, find_on_path, with_those_below

TOOLS = ("try-wrong-bodies", "wrong_bodies.py", "kept_verdicts.py", "repository.py")


def sum_of_files(folder, paths):
    """A sum of files below a folder: their names and their bytes."""
    total = hashlib.sha256()
    for path in paths:
        with open(f"{folder}/{path}", "rb") as file:
            total.update(repr((path, hashlib.sha256(file.read()).hexdigest())).encode())
    return total.hexdigest()


def files_below(folder):
    return sorted(os.path.relpath(f"{at}/{name}", folder) for at, _, names in os.walk(folder) for name in names)


def sum_of_sources(crate):
    folder = f"{ROOT}/crates/{crate}"
    return sum_of_files(folder, [f"{part}/{path}" for part in SOURCES for path in files_below(f"{folder}/{part}")])


def crate_of_tests(crate, needs):
    """The crate that has the tests of a crate."""
    return f"{crate}_tests" if f"{crate}_tests" in needs else crate


def sum_of_toolchain():
    """A sum of what the toolchain says that it is."""
    kit = os.path.dirname(os.path.dirname(find_on_path("rt")))
    return sum_of_files(kit, ["WHAT"])


class KeptVerdicts:
    """The verdicts that wrong bodies are refused. One stands for the same text of the wrong body, of its crate and the crates below,
    of the tools here and of the toolchain. A library of a crate below stands for its sources: it has what the crate states, without
    its proofs. Where the folder can't be written, nothing is kept."""

    def __init__(self, crate, needs, libraries):
        home = os.environ.get("XDG_CACHE_HOME") or os.path.expanduser("~/.cache")
        self.folder = f"{home}/rendzukat/wrong-bodies"
        self.sums = [sum_of_toolchain(), sum_of_files(f"{ROOT}/tools", TOOLS), crate, sum_of_sources(crate)]
        for below in with_those_below(needs, crate)[:-1]:
            library = libraries.get(below)
            self.sums.append((below, sum_of_files(library, files_below(library)) if library else sum_of_sources(below)))
        self.sum_of_tests = sum_of_sources(crate_of_tests(crate, needs))

    def path_of(self, edit):
        with open(edit.path, "rb") as file:
            stands_on = [*self.sums, self.sum_of_tests] if edit.test else self.sums
            return f"{self.folder}/{hashlib.sha256(repr((stands_on, edit.name, file.read())).encode()).hexdigest()}"

    def find(self, edit):
        """The verdict of an earlier run, or nothing."""
        try:
            with open(self.path_of(edit), encoding="utf-8") as file:
                return file.read().strip() or None
        except OSError:
            return None

    def keep(self, edit, verdict):
        try:
            os.makedirs(self.folder, exist_ok=True)
            path = self.path_of(edit)
            with open(f"{path}.{os.getpid()}", "w", encoding="utf-8") as file:
                file.write(verdict + "\n")
            os.replace(f"{path}.{os.getpid()}", path)
        except OSError:
            pass
