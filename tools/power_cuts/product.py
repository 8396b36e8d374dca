"""The program's commands as processes. What a command wrote is read from files in a folder of its own, which is quick."""
import os
import signal
import time
from collections import namedtuple

from power_cuts.loading import MOST_SECONDS, loaded, lowest_free

MOST_SECONDS_ON_THE_WALL = 300
NOTHING = "/dev/null"
MANY_BYTES = 1 << 20
ENVIRONMENT = dict(os.environb)
Ran = namedtuple("Ran", "status out err")


class Failure(Exception):
    """Something that the promise rules out."""


class Hangs(Failure):
    """A command used more than ten seconds of a processor, or waited for five minutes."""


class Product:
    """The program, and a folder for what it writes. `status` of a command is its exit status, or minus its signal."""

    def __init__(self, program, folder):
        self.program, self.out, self.err = program, f"{folder}/out", f"{folder}/err"
        self.calls = 0

    def do(self, *words):
        return self.run(words)

    def run(self, words, given=NOTHING, environment=None):
        """Runs a command with the file `given` as standard input."""
        self.calls += 1
        program = loaded(self.program) if environment is None else None
        return self.run_loaded(program, words, given) if program else self.run_alone(words, given, environment)

    def run_loaded(self, program, words, given):
        """Runs a command in this process."""
        before = lowest_free()
        ran = Ran(*program.run(words, given))
        if lowest_free() != before:
            raise Failure(f"{words[0]} leaves a file open")
        return ran

    def run_alone(self, words, given, environment):
        """Runs a command in a process of its own."""
        flags = os.O_WRONLY | os.O_CREAT | os.O_TRUNC
        actions = [(os.POSIX_SPAWN_OPEN, 0, given, os.O_RDONLY, 0), (os.POSIX_SPAWN_OPEN, 1, self.out, flags, 0o600),
                   (os.POSIX_SPAWN_OPEN, 2, self.err, flags, 0o600)]
        words = [self.program, *words]
        child = os.posix_spawn(words[0], words, environment or ENVIRONMENT, file_actions=actions)
        return Ran(wait_for(child, words), read(self.out), read(self.err))


def wait_for(child, words):
    """The exit status of a child process, or minus the signal that ended it."""
    last = time.monotonic() + MOST_SECONDS_ON_THE_WALL

    def look(*_):
        seconds = processor_seconds(child)
        if seconds is None:
            return
        if seconds < MOST_SECONDS and time.monotonic() < last:
            signal.alarm(MOST_SECONDS)
            return
        os.kill(child, signal.SIGKILL)
        os.waitpid(child, 0)
        raise Hangs(" ".join(os.fsdecode(word) for word in words))

    signal.signal(signal.SIGALRM, look)
    signal.alarm(MOST_SECONDS)
    _, status = os.waitpid(child, 0)
    signal.alarm(0)
    return os.waitstatus_to_exitcode(status)


def processor_seconds(child):
    """How long a process has been running on a processor, or nothing if it is gone."""
    try:
        user, system = read(f"/proc/{child}/stat").rpartition(b")")[2].split()[11:13]
    except (FileNotFoundError, ProcessLookupError):
        return None
    return (int(user) + int(system)) / os.sysconf("SC_CLK_TCK")


def read(path):
    """The bytes of a file, mostly few."""
    file = os.open(path, os.O_RDONLY)
    try:
        parts = [os.read(file, MANY_BYTES)]
        while parts[-1]:
            parts.append(os.read(file, MANY_BYTES))
        return b"".join(parts)
    finally:
        os.close(file)
