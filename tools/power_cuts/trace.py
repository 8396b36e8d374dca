"""The calls to the host that a run makes on its volume and on standard output, by `strace`.

`trace_run` runs a command and returns a list of events, in their order:

    Write(sector, text, is_done)   a sector was written, or the call failed; a call that writes several adjacent sectors is one event for
                                   each of them, because a power cut may come between them
    Sync(is_done)                  the volume was synced, or that failed
    Show(count)                    so many bytes were written to standard output"""
import re
import subprocess
from collections import namedtuple

from power_cuts.product import Failure, Hangs, Ran, read
from power_cuts.volume import SECTOR

Write = namedtuple("Write", "sector text is_done")
Sync = namedtuple("Sync", "is_done")
Show = namedtuple("Show", "count")

CALLS = "openat,open,creat,close,write,writev,pwrite64,pwritev,pwritev2,fdatasync,fsync,ftruncate,fallocate,sync_file_range,msync"
CALL = re.compile(r"(?:\d+ +)?(\w+)\((.*)\) += (-?\d+)(?: .*)?$")
OPENED = re.compile(r'AT_FDCWD, "((?:\\x[0-9a-f]{2})*)"')
WRITTEN = re.compile(r'(\d+), "((?:\\x[0-9a-f]{2})*)", (\d+), (\d+)$')
MOST_SECONDS = 120
MOST_BYTES = 1 << 20


class UnknownCall(Failure):
    """A call that changes the volume in a way that this tool doesn't know."""


def trace_run(words, volume, folder, fault=None, given="/dev/null"):
    """Runs a command that opens the volume, with the file `given` as standard input. `fault` is (call, n): the n-th call of this kind
    fails with an I/O error."""
    calls = f"{folder}/calls"
    strace = ["strace", "-f", "-qq", "--seccomp-bpf", "-xx", "-s", str(MOST_BYTES), "-e", f"trace={CALLS}", "-o", calls]
    if fault:
        strace += ["-e", f"inject={fault[0]}:error=EIO:when={fault[1]}"]
    with open(given, "rb") as console, open(f"{folder}/out", "wb") as out, open(f"{folder}/err", "wb") as err:
        try:
            ran = subprocess.run(strace + words, stdin=console, stdout=out, stderr=err, timeout=MOST_SECONDS)
        except subprocess.TimeoutExpired:
            raise Hangs(" ".join(words)) from None
    ran = Ran(ran.returncode, read(f"{folder}/out"), read(f"{folder}/err"))
    with open(calls, "r", encoding="ascii", errors="replace") as lines:
        return ran, events_of(lines, volume)


def events_of(lines, volume):
    events, volumes = [], set()
    for line in whole_lines(lines):
        found = CALL.match(line)
        if found:
            name, words, result = found[1], found[2], int(found[3])
            note_descriptor(volumes, name, words, result, volume)
            events += events_of_call(volumes, name, words, result)
        elif "+++" not in line and "---" not in line:
            raise UnknownCall(line[:200])
    return events


def whole_lines(lines):
    """The lines of a trace, of which those that another process broke are put together."""
    begun = {}
    for line in lines:
        line = line.rstrip("\n")
        process = line.split(" ")[0]
        if line.endswith(" <unfinished ...>"):
            begun[process] = line.removesuffix(" <unfinished ...>")
        elif " resumed>" in line:
            yield begun.pop(process) + line.split(" resumed>")[1]
        else:
            yield line


def note_descriptor(volumes, name, words, result, volume):
    """Follows which descriptors are the volume."""
    if name in ("openat", "open") and result >= 0:
        path = OPENED.search(words)
        is_volume = path is not None and text_of(path[1]) == volume.encode()
        volumes.add(result) if is_volume else volumes.discard(result)
    elif name == "close":
        volumes.discard(int(words))


def events_of_call(volumes, name, words, result):
    if name in ("openat", "open", "close"):
        return []
    descriptor = int(words.split(",")[0])
    if descriptor == 1 and name in ("write", "writev"):
        return [Show(max(result, 0))]
    if descriptor not in volumes:
        return []
    if name in ("fdatasync", "fsync"):
        return [Sync(result == 0)]
    return writes_of(name, words, result)


def writes_of(name, words, result):
    """The sectors that a call wrote, or didn't write if it failed. A call that wrote some of them alone isn't known."""
    written = WRITTEN.match(words) if name == "pwrite64" else None
    size, place = (int(written[3]), int(written[4])) if written else (0, 0)
    if not size or size % SECTOR or place % SECTOR or result not in (size, -1):
        raise UnknownCall(f"{name}({words[:60]} ..) = {result}")
    text = text_of(written[2])
    if len(text) != size:
        raise UnknownCall(f"{name} of {size} bytes, of which the trace has {len(text)}")
    return [Write((place + at) // SECTOR, text[at:at + SECTOR], result == size) for at in range(0, size, SECTOR)]


def text_of(escaped):
    return bytes.fromhex(escaped.replace("\\x", ""))
