"""The program loaded into the process of a tool, which calls its `main` for each command.

A command costs a tenth of what it costs with a process of its own, and on a busy host less than that. What a process of its own begins
with is put back before each call: the program's data, the arguments, and the standard files. The heap is the tool's, and a command that
ends by a signal ends the tool's process.

The loader takes no executable as a library, so the program's copy lacks the flag that says it is one."""
import ctypes
import functools
import os
import signal
import struct
import tempfile
from collections import namedtuple
from contextlib import contextmanager

from repository import say

# The name in the environment by which this process and its children know that programs are loaded.
WANTED = "COBOL_LOADED"
MOST_SECONDS = 10
STANDARD = (0, 1, 2)
MAIN = ctypes.CFUNCTYPE(ctypes.c_int, ctypes.c_int, ctypes.POINTER(ctypes.c_char_p), ctypes.c_void_p)

# What the format ELF has: its mark for 64 bits, and kinds of segments, of entries of the dynamic segment, and of sections.
MARK = b"\x7fELF\2\1"
DYNAMIC, LOAD, READ_ONLY_LATER, IS_WRITABLE = 2, 1, 0x6474E552, 2
END, BEGINS, BYTES_OF_BEGINS, FLAGS, IS_EXECUTABLE = 0, 25, 27, 0x6FFFFFFB, 0x08000000
SYMBOLS = 2
PAGE = 4096
Segment = namedtuple("Segment", "kind flags offset address physical bytes_of_file bytes alignment")
Section = namedtuple("Section", "name kind flags address offset bytes link info alignment bytes_of_entry")
Symbol = namedtuple("Symbol", "name info other section address bytes")


class NotLoadable(Exception):
    """Why a program can't be loaded."""


@contextmanager
def loading(is_wanted=True):
    """Within it, products load the program, if this is wanted."""
    if is_wanted:
        os.environ[WANTED] = "1"
    try:
        yield
    finally:
        os.environ.pop(WANTED, None)


def loaded(program):
    """The program in this process, or nothing if commands are to have processes of their own, or have to."""
    return in_process(program, os.getpid()) if WANTED in os.environ else None


@functools.cache
def in_process(program, _process):
    try:
        return Loaded(program)
    except NotLoadable as why:
        say(f"{why}; each command has a process of its own")
        return None


class Executable:
    """The tables of an executable file."""

    def __init__(self, path):
        with open(path, "rb") as file:
            self.text = bytearray(file.read())
        if not self.text.startswith(MARK):
            raise NotLoadable(f"{path} isn't of the format ELF")
        segments_at, sections_at = struct.unpack_from("<QQ", self.text, 32)
        (segments,), (sections,) = struct.unpack_from("<H", self.text, 56), struct.unpack_from("<H", self.text, 60)
        self.segments = [Segment(*struct.unpack_from("<IIQQQQQQ", self.text, segments_at + 56 * i)) for i in range(segments)]
        self.sections = [Section(*struct.unpack_from("<IIQQQQIIQQ", self.text, sections_at + 64 * i)) for i in range(sections)]

    def dynamic(self):
        """The entries of the dynamic segment: the place in the file, the tag and the value of each."""
        segment = next((one for one in self.segments if one.kind == DYNAMIC), None)
        if segment is None:
            raise NotLoadable("it isn't linked to shared libraries")
        places = range(segment.offset, segment.offset + segment.bytes_of_file, 16)
        return [(at, *struct.unpack_from("<qQ", self.text, at)) for at in places]

    def value(self, tag):
        return next((value for _, one, value in self.dynamic() if one == tag), 0)

    def address_of(self, name):
        """The address of a symbol."""
        for section in self.sections:
            if section.kind == SYMBOLS:
                names = self.sections[section.link].offset
                for at in range(section.offset, section.offset + section.bytes, 24):
                    symbol = Symbol(*struct.unpack_from("<IBBHQQ", self.text, at))
                    if self.text.startswith(name + b"\0", names + symbol.name):
                        return symbol.address
        raise NotLoadable(f"it has no symbol {name.decode()}")

    def data(self):
        """The addresses of the first byte that the program can change, and of the one after the last."""
        later = max((one.address + one.bytes for one in self.segments if one.kind == READ_ONLY_LATER), default=0)
        fixed = later & -PAGE
        ends = [(max(one.address, fixed), one.address + one.bytes) for one in self.segments if one.kind == LOAD and one.flags & IS_WRITABLE]
        first, last = zip(*[(first, last) for first, last in ends if first < last])
        return min(first), max(last)

    def write_library(self, path):
        """Writes a copy that the loader takes for a library."""
        for at, tag, value in self.dynamic():
            if tag == FLAGS:
                struct.pack_into("<Q", self.text, at + 8, value & ~IS_EXECUTABLE)
        with open(path, "wb") as file:
            file.write(self.text)


class Loaded:
    """The program, loaded into this process."""

    def __init__(self, program):
        file = Executable(program)
        self.name, base = os.fsencode(program), load(file)
        self.main = MAIN(base + file.address_of(b"main"))
        begins = (ctypes.c_uint64 * (file.value(BYTES_OF_BEGINS) // 8)).from_address(base + file.value(BEGINS))
        self.begins = [MAIN(address) for address in begins]
        first, last = file.data()
        self.data, self.first_data = base + first, ctypes.string_at(base + first, last - first)
        self.environment = ctypes.c_void_p.in_dll(ctypes.CDLL(None), "environ")
        self.own = [os.dup(file) for file in STANDARD]
        self.out, self.err = os.memfd_create("out"), os.memfd_create("err")

    def run(self, words, given):
        """A command's exit status, and what it writes to standard output and standard error."""
        words = [self.name, *map(os.fsencode, words)]
        words = (ctypes.c_char_p * (len(words) + 1))(*words, None)
        console = os.open(given, os.O_RDONLY)
        self.redirect((console, self.out, self.err))
        os.close(console)
        try:
            status = self.call(words, len(words) - 1)
        finally:
            self.redirect(self.own)
        return status, taken(self.out), taken(self.err)

    def redirect(self, files):
        for standard, file in zip(STANDARD, files):
            os.dup2(file, standard)

    def call(self, words, count):
        """Calls `main` as the C library does. The signal PROF ends the process if it takes more than ten seconds of a processor."""
        ctypes.memmove(self.data, self.first_data, len(self.first_data))
        signal.setitimer(signal.ITIMER_PROF, MOST_SECONDS)
        for begin in self.begins:
            begin(count, words, self.environment)
        status = self.main(count, words, self.environment) & 255
        signal.setitimer(signal.ITIMER_PROF, 0)
        return status


def load(file):
    """Loads a copy of the program. The address that its addresses count from."""
    with tempfile.TemporaryDirectory() as folder:
        path = f"{folder}/cobol.so"
        file.write_library(path)
        try:
            ctypes.CDLL(path)
        except OSError as why:
            raise NotLoadable(str(why)) from why
        with open("/proc/self/maps", encoding="utf-8", errors="replace") as maps:
            return min(int(line.split("-")[0], 16) for line in maps if path in line)


def lowest_free():
    """The lowest descriptor that isn't in use."""
    file = os.dup(0)
    os.close(file)
    return file


def taken(file):
    """What a file holds, which is empty afterwards."""
    length = os.fstat(file).st_size
    text = os.pread(file, length, 0) if length else b""
    if length:
        os.ftruncate(file, 0)
        os.lseek(file, 0, os.SEEK_SET)
    return text
