#!/usr/bin/env python3
"""Gives a crate of this checkout the libraries below it that `rt ci` has left in another checkout of the same sources, so that `rt check` builds none of them.

usage: libraries.py CHECKOUT CRATE     CHECKOUT is the folder in which `rt ci` ran to its end

`rt ci` leaves crates/NAME/out/rlib without the stamp by which `rt check` knows a library. The stamp is a sum of the sources that lie in this checkout: so take
a checkout whose sources below the crate are the same, since nothing compares them. What is checked over these libraries counts for nothing at the gate.
"""
import importlib.machinery
import importlib.util
import os
import shutil
import sys

sys.dont_write_bytecode = True
TOP = os.path.dirname(os.path.dirname(os.path.realpath(__file__)))


def main(whence, name):
    loader = importlib.machinery.SourceFileLoader("rt_of_the_kit", os.path.realpath(shutil.which("rt") or sys.exit("libraries.py: no command 'rt' on the PATH")))
    rt = importlib.util.module_from_spec(importlib.util.spec_from_loader("rt_of_the_kit", loader))
    loader.exec_module(rt)
    rt.Crate.allowed = rt.handles_of(TOP)
    rt.rtlib.Crate = rt.Crate
    crates = {it.name: it for it in rt.rtlib.crates_below(TOP)}
    for crate in crates[name].below():
        built, here = f"{whence}/crates/{crate.name}/out/rlib", f"{TOP}/crates/{crate.name}/out/rlib"
        if not os.path.isdir(f"{built}/{crate.name}.rlib") and not os.path.isfile(f"{built}/{crate.name}.rlib"):
            print(f"{crate.name}: not built there")
            continue
        shutil.rmtree(here, ignore_errors=True)
        shutil.copytree(built, here)
        with open(f"{here}/stamp", "w", encoding="utf-8") as it: it.write(crate.stamp())
    os.chdir(TOP)


if __name__ == "__main__":
    sys.exit(main(*sys.argv[1:]) if len(sys.argv) == 3 else sys.stderr.write(__doc__) and 2)
