"""What the tools know of the repository: its crates, what each needs, and the folders of their sources."""
import functools
import importlib.machinery
import importlib.util
import os
import subprocess
import sys

ROOT = os.path.dirname(os.path.dirname(os.path.realpath(__file__)))
PROGRAM = "cobol"
SOURCES = ("src", "specs", "proofs")
# The exit status where the program can't be built, which the program itself never has.
NOT_BUILT = 70


def dependencies():
    """Each crate of the repository, with the repository's crates that it names."""
    needs = {}
    with open(f"{ROOT}/crates.txt", encoding="utf-8") as table:
        for line in table:
            line = line.split("#")[0].strip()
            if line:
                names, _, below = line.partition(":")
                needs[names.split()[0]] = below.split()
    return {name: [crate for crate in below if crate in needs] for name, below in needs.items()}


def with_those_below(needs, name, seen=None):
    """A crate after all crates that it needs, lowest first."""
    seen = [] if seen is None else seen
    if name not in seen:
        for crate in needs[name]:
            with_those_below(needs, crate, seen)
        seen.append(name)
    return seen


def source_folders(crates):
    """The folders of sources of these crates, as paths below the top of the repository."""
    folders = [f"crates/{crate}/{part}" for crate in crates for part in SOURCES]
    return [folder for folder in folders if os.path.isdir(f"{ROOT}/{folder}")]


def say(text):
    """Reports something on standard error."""
    print(f"{os.path.basename(sys.argv[0])}: {text}", file=sys.stderr, flush=True)


def find_on_path(command):
    """The real path of a command, or nothing."""
    for folder in os.environ.get("PATH", "").split(os.pathsep):
        path = os.path.join(folder, command)
        if os.path.isfile(path) and os.access(path, os.X_OK):
            return os.path.realpath(path)
    return None


@functools.cache
def toolchain_library():
    """The toolchain's own reader of crates.txt, a Python module."""
    path = f"{os.path.dirname(find_on_path('rt'))}/rtlib.py"
    loader = importlib.machinery.SourceFileLoader("rtlib", path)
    library = importlib.util.module_from_spec(importlib.util.spec_from_loader("rtlib", loader))
    sys.modules["rtlib"] = library
    loader.exec_module(library)
    return library


def write_mark(path, folders, begun):
    """Writes the mark of a finished build: what its program is made of. The mark's time is the beginning of the build."""
    with open(f"{path}.new", "w", encoding="utf-8") as mark:
        mark.write("\n".join(["crates.txt", *folders]) + "\n")
    os.utime(f"{path}.new", (begun, begun))
    os.replace(f"{path}.new", path)


def is_fresh(program, mark):
    """Whether a program is as new as all that its mark names."""
    if not (os.path.isfile(program) and os.path.isfile(mark)):
        return False
    built = os.stat(mark).st_mtime_ns
    with open(mark, encoding="utf-8") as lines:
        return all(newest(f"{ROOT}/{line.strip()}") <= built for line in lines)


def newest(path):
    """The time of the newest file or folder at or below a path; one that isn't there is newer than all."""
    try:
        found = os.stat(path).st_mtime_ns
        if os.path.isdir(path):
            found = max([found, *[newest(f"{path}/{name}") for name in os.listdir(path)]])
        return found
    except OSError:
        return float("inf")


def program_path():
    """The path of the program: the one that the variable COBOL names, or that of tools/find-program. This process ends if there is none."""
    if os.environ.get("COBOL"):
        return os.path.abspath(os.environ["COBOL"])
    found = subprocess.run([f"{ROOT}/tools/find-program"], stdin=subprocess.DEVNULL, stdout=subprocess.PIPE, text=True)
    if found.returncode:
        sys.exit(found.returncode)
    return found.stdout.strip()


def compile_source(program, source, room):
    """Compiles a source, makes a volume, and returns the words that run the image over the volume."""
    image, volume = f"{room}/image", f"{room}/volume"
    subprocess.run([program, "compile", source, image], check=True)
    subprocess.run([program, "format", volume, "1024"], check=True)
    return [program, "run", image, volume]
