#!/usr/bin/env python3
"""Runs a command of `rt`, in which the sum of a crate's sources is made once.

Usage: tools/rt.py lib | must-fail | .. WORDS        (the words of `rt`, in the folder that `rt` is to be run in)

`rt` knows a library that is built by a sum of the crate's files and of the sums of the crates that it names, each of which is made anew each time. A
crate high up stands on the lowest ones in thousands of ways (`invar_app` in 24,717), so `rt lib` reads millions of files there. Here a sum that is
asked for makes that of each crate below once. Nothing else of `rt` is changed, and nothing at all where a kit has no such sum.
"""
import functools
import importlib.machinery
import os
import runpy
import shutil
import sys
import threading


def made_once(stamp):
    """A method of crates that asks itself for those below, changed so that each is asked once for what is asked from outside."""
    calls = threading.local()

    @functools.wraps(stamp)
    def stamp_once(crate):
        is_outermost = not hasattr(calls, "known")
        if is_outermost:
            calls.known = {}
        try:
            if crate.folder not in calls.known:
                calls.known[crate.folder] = stamp(crate)
            return calls.known[crate.folder]
        finally:
            if is_outermost:
                del calls.known

    return stamp_once


class Loader(importlib.machinery.SourceFileLoader):
    """Loads what `rt` is made of."""

    def exec_module(self, module):
        super().exec_module(module)
        crate = getattr(module, "Crate", None)
        if hasattr(crate, "stamp"):
            crate.stamp = made_once(crate.stamp)


def main():
    rt = shutil.which("rt")
    if rt is None:
        sys.exit("tools/rt.py: there is no rt on the PATH")
    path = os.path.realpath(rt)
    importlib.machinery.SourceFileLoader = Loader
    sys.argv[0] = path
    runpy.run_path(path, run_name="__main__")


if __name__ == "__main__":
    main()
