"""The library for C programs as a program links it: what `rt lib` made in crates/sfbuild_c, with the three functions in it by which it asks for memory.
These are the toolchain's, over malloc, realloc and free."""
import os
import shutil
import subprocess

ROOT = os.path.dirname(os.path.dirname(os.path.realpath(__file__)))
CRATE = f"{ROOT}/crates/sfbuild_c"
HEADER = f"{CRATE}/include/sfbuild.h"
BUILT = f"{CRATE}/out/libsfbuild_c.a"
NAME = "libsfbuild_c.a"
# What each C library has, and the linker.
OF_C = {"malloc", "calloc", "realloc", "free", "memcpy", "memmove", "memset", "memcmp", "bcmp", "_GLOBAL_OFFSET_TABLE_"}


class Refused(Exception):
    """Why the library can't be had."""


def output(*words, folder=ROOT):
    try:
        ran = subprocess.run(words, cwd=folder, stdin=subprocess.DEVNULL, capture_output=True, text=True)
    except FileNotFoundError as error:
        raise Refused(f"{words[0]} is needed, and isn't on the path") from error
    if ran.returncode:
        raise Refused(f"`{' '.join(words)}` ended with {ran.returncode}: {(ran.stderr or ran.stdout).strip()[-500:]}")
    return ran.stdout


def undefined(library):
    """The names that a library wants of others."""
    names = {"U": set(), "T": set()}
    for line in output("nm", "-g", library).splitlines():
        words = line.split()
        if len(words) >= 2 and words[-2] in names:
            names[words[-2]].add(words[-1])
    return names["U"] - names["T"]


def heap():
    """The toolchain's library with the three functions."""
    found = shutil.which("rt")
    library = found and f"{os.path.dirname(os.path.dirname(os.path.realpath(found)))}/c/liblibc_c.a"
    if not library or not os.path.isfile(library):
        raise Refused("the toolchain isn't on the path, whose part of the library asks for memory")
    return library


def put(library, folder):
    """Puts the library into the folder, and answers its path there."""
    if not os.path.isfile(library):
        raise Refused(f"there is no {library}: `rt lib` in crates/sfbuild_c proves and makes it")
    into = f"{folder}/{NAME}"
    shutil.copyfile(library, into)
    if any(it.startswith("rattle_") for it in undefined(into)):
        other = heap()
        for member in output("ar", "t", other).split():
            output("ar", "x", other, member, folder=folder)
            output("ar", "rs", NAME, member, folder=folder)
            os.remove(f"{folder}/{member}")
    strange = sorted(it for it in undefined(into) if it not in OF_C)
    if strange:
        raise Refused(f"the library wants {', '.join(strange)}, which isn't in it")
    return into
