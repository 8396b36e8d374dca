"""Libraries of C that are loaded into the program before the C library (LD_PRELOAD)."""
import os
import shutil
import subprocess

from repository import find_on_path

FLAGS = ["-O1", "-fPIC", "-fno-builtin"]
OF_THE_TOOLCHAIN = ["--target=x86_64-unknown-linux-gnu", "--no-default-config", "-no-canonical-prefixes"]


class NoCompiler(Exception):
    """There is nothing that compiles a library."""


def build_library(source, folder):
    """Compiles a library in a folder by the host's C compiler, or else by the toolchain's. Returns its path."""
    library = f"{folder}/{os.path.basename(source)[:-2]}.so"
    if shutil.which("cc"):
        compile_by([["cc", *FLAGS, "-shared", "-nostdlib", "-o", library, source]])
        return library
    command = find_on_path("rt")
    clang = command and f"{os.path.dirname(os.path.dirname(command))}/toolchain/bin/clang"
    if not (clang and os.access(clang, os.X_OK)):
        raise NoCompiler("there is no C compiler: neither cc nor the toolchain's clang")
    linker, module = f"{os.path.dirname(clang)}/ld.lld", f"{library[:-3]}.o"
    compile_by([[clang, *OF_THE_TOOLCHAIN, *FLAGS, "-c", "-o", module, source], [linker, "-shared", "-o", library, module]])
    return library


def compile_by(commands):
    for words in commands:
        ran = subprocess.run(words, stdin=subprocess.DEVNULL, capture_output=True, text=True)
        if ran.returncode:
            raise NoCompiler(f"the C compiler can't make the library: {ran.stderr.strip()[:1000]}")
