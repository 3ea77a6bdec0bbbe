#!/usr/bin/env python3
"""Builds the library for C: libwireline.a, libwireline.so and wireline.h.

usage: c_library.py FOLDER [ARCHIVE]     ARCHIVE is a libwl_c.a that was built before; without it crates/wl_c is proved and compiled

The crate is proved over the libraries that `rt ci` has just left, or else over those that are built first. From the crate's object, the kit's functions over
malloc and tools/c/wireline.c comes one object, of which only the functions of wireline.h are seen from outside. A library that was proved here has the sum of
its sources beside it (library.sum): tools/package.py packs out/c if that sum is today's. It takes cc, ar, ld and objcopy (Debian's
packages gcc and binutils).
"""
import importlib.machinery
import importlib.util
import os
import re
import shutil
import subprocess
import sys
import tempfile

sys.dont_write_bytecode = True
TOP = os.path.dirname(os.path.dirname(os.path.realpath(__file__)))
CRATE = "wl_c"
FUNCTIONS = [f"wireline_{it}" for it in ("run", "check", "explain", "margin", "traffic", "respond", "judge")]


def called(*words, folder=None):
    subprocess.run(words, cwd=folder, check=True, stdin=subprocess.DEVNULL)


def wrong():
    """Returns .ci/wrong.py as a module: it finds the toolchain, and the libraries to prove a crate over."""
    loader = importlib.machinery.SourceFileLoader("wrong", f"{TOP}/.ci/wrong.py")
    module = importlib.util.module_from_spec(importlib.util.spec_from_loader("wrong", loader))
    loader.exec_module(module)
    return module


def kit_folder():
    return os.path.dirname(os.path.dirname(os.path.realpath(shutil.which("rt") or sys.exit("c_library.py: no command 'rt' on the PATH"))))


def proved(archive):
    """Proves the crate and compiles it."""
    found = wrong()
    rt, crates = found.kit()
    found.build(rt, crates, [CRATE])
    crate = crates[CRATE]
    with open(os.devnull, "w", encoding="utf-8") as crate.out:
        words = crate.words(["--jobs", "1"], keeps=False)
    words = [rt.rtlib.RATTLE, "build", *words, "--toolchain", f"{rt.rtlib.KIT}/toolchain", "--backend", "llvm", "-o", archive]
    ran = subprocess.run([*rt.rtlib.guarded(), *words], cwd=crate.folder, check=False, stdin=subprocess.DEVNULL, stdout=subprocess.PIPE, stderr=subprocess.STDOUT)
    if ran.returncode: sys.exit(f"{ran.stdout.decode(errors='replace')}c_library.py: {CRATE} was not proved")


def functions():
    """Returns the functions of the header: no other one is seen from outside."""
    with open(f"{TOP}/tools/c/wireline.h", encoding="utf-8") as it: return re.findall(r"(?m)^uint32_t (wireline_\w+)\(", it.read())


def link(archive, folder):
    """Makes the library of a compiled crate."""
    with tempfile.TemporaryDirectory() as room:
        called("ar", "x", os.path.abspath(archive), folder=room)
        called("ar", "x", f"{kit_folder()}/c/liblibc_c.a", folder=room)
        called("cc", "-std=c99", "-Wall", "-Wextra", "-O2", "-fPIC", "-c", f"{TOP}/tools/c/wireline.c", "-o", f"{room}/calls.o")
        objects = sorted(it for it in os.listdir(room) if it.endswith(".o"))
        called("ld", "-r", "-o", "wireline.all", *objects, folder=room)
        called("objcopy", *(f"--keep-global-symbol={it}" for it in functions()), "wireline.all", "wireline.o", folder=room)
        called("ar", "rcsD", "libwireline.a", "wireline.o", folder=room)
        called("cc", "-shared", "-Wl,-soname,libwireline.so", "-Wl,-z,defs", "-Wl,--build-id=none", "-o", "libwireline.so", "-Wl,--whole-archive", "libwireline.a",
               "-Wl,--no-whole-archive", folder=room)
        os.makedirs(folder, exist_ok=True)
        for it in "libwireline.a", "libwireline.so": shutil.copy(f"{room}/{it}", f"{folder}/{it}")
    shutil.copy(f"{TOP}/tools/c/wireline.h", f"{folder}/wireline.h")


def main(folder, archive=""):
    if archive: return link(archive, folder)
    archive = f"{TOP}/crates/{CRATE}/out/lib{CRATE}.a"
    os.makedirs(os.path.dirname(archive), exist_ok=True)
    sum_of_sources = subprocess.run(["./wireline", "sum"], cwd=TOP, check=True, stdout=subprocess.PIPE).stdout.decode()
    proved(archive)
    link(archive, folder)
    with open(f"{folder}/library.sum", "w", encoding="utf-8") as it: it.write(sum_of_sources)


if __name__ == "__main__":
    sys.exit(main(*sys.argv[1:]) if 2 <= len(sys.argv) <= 3 else sys.stderr.write(__doc__) and 2)
