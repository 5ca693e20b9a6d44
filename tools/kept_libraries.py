#!/usr/bin/env python3
"""Gives a checkout the libraries that `rt ci` proved on this machine, so that `rt check` needn't prove them again.

    tools/kept_libraries.py [CHECKOUT]     by default the one that this file stands in

`rt ci` keeps what it passed for later runs of itself, while `rt check` and `rt test` begin with what other checks left. This
program puts the first at the disposal of the second, crate by crate from the lowest, where the texts are the same. It prints
which crates have their library now and which don't yet. No verdict rests on it: the gate takes nothing from a checkout's out/.
It uses the kit's own program `rt` as a module, and may need a change with another kit.
"""
import importlib.machinery
import importlib.util
import os
import shutil
import sys


def kit():
    """The kit's program `rt`, as a module."""
    path = os.path.realpath(shutil.which("rt"))
    sys.path.insert(0, os.path.dirname(path))
    loader = importlib.machinery.SourceFileLoader("kit_rt", path)
    module = importlib.util.module_from_spec(importlib.util.spec_from_loader("kit_rt", loader))
    loader.exec_module(module)
    return module


def give(rt, kept, crate):
    """Puts a crate's kept library into its out/, unless it is there; answers whether it is there then."""
    if any(below.name not in kept.rlibs for below in crate.below()):
        return False
    key = kept.key(crate)
    if not os.path.isdir(kept.place(crate, False, key)):
        return False
    folder = f"{crate.folder}/out/rlib"
    stamps = {"stamp": crate.stamp(), "of": key}
    if not all(rt.rtlib.text_of(f"{folder}/{name}") == text for name, text in stamps.items()):
        shutil.rmtree(folder, ignore_errors=True)
        os.makedirs(folder)
        if not kept.give(crate, False, key):
            return False
        for name, text in stamps.items():
            with open(f"{folder}/{name}", "w", encoding="utf-8") as file:
                file.write(text)
    kept.is_built(crate)
    return True


def main():
    if len(sys.argv) > 2:
        sys.exit(__doc__)
    top = os.path.dirname(os.path.dirname(os.path.abspath(__file__)))
    root = os.path.realpath(sys.argv[1] if len(sys.argv) == 2 else top)
    rt = kit()
    os.chdir(root)
    rt.Crate.allowed = rt.handles_of(root)
    crates = [it for it in rt.crates_of(root) if not it.is_program]
    kept = rt.Kept(crates, False)
    given = [it.name for it in crates if give(rt, kept, it)]
    print("have their library:", *given)
    print("have none yet:", *[it.name for it in crates if it.name not in given])


if __name__ == "__main__":
    main()
