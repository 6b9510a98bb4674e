"""The kit's `rt` as a module, with each question about the dependency graph answered once.

`rt` finds the crates below a crate by walking every path through the dependencies. Here they are listed once, since that list does not
change during a run. A sum of the sources below a crate reads each crate once; none is kept for the next sum, so a file that changes during a
run is noticed as `rt` notices it.
"""
import importlib.machinery
import importlib.util
import os
import shutil
import sys
import threading

sys.dont_write_bytecode = True


def load():
    """Returns the module, or ends with a message if there is no rt."""
    found = shutil.which("rt")
    if not found:
        sys.exit("the command rt of the Rattle kit is not on the PATH")
    path = os.path.realpath(found)
    loader = importlib.machinery.SourceFileLoader("rt_of_the_kit", path)
    module = importlib.util.module_from_spec(importlib.util.spec_from_loader(loader.name, loader))
    sys.path.insert(0, os.path.dirname(path))
    # (rt reads its own path here)
    sys.argv[0] = path
    loader.exec_module(module)
    make_quick(module.rtlib.Crate)
    return module


def note_libraries(rt, top, name):
    """Notes of each library below a crate that it is made of the present files, where `rt ci` has just made it and left no such note.

    Call it after a gate that passed, with no edit since: other commands then build on these libraries, and do not prove them again.
    Returns the names of those that are not there, or not of the present files: `rt ci` puts back the libraries that earlier checks had left,
    in place of those that it has made.
    """
    below = next(it for it in rt.rtlib.crates_below(top) if it.name == name).below()
    for it in below:
        note = os.path.join(os.path.dirname(it.rlib), "stamp")
        if os.path.isdir(it.rlib) and not os.path.exists(note):
            with open(note, "w", encoding="utf-8") as file:
                file.write(it.stamp())
    return [it.name for it in below if not it.is_built()]


def make_quick(crate):
    """Has the class of a crate list what is below it once, and read each crate once for each sum."""
    stamp_of, below_of, sums = crate.stamp, crate.below, threading.local()

    def below(self):
        if not hasattr(self, "listed_below"):
            self.listed_below = below_of(self)
        return list(self.listed_below)

    def stamp(self):
        if hasattr(sums, "seen"):
            if self.folder not in sums.seen:
                sums.seen[self.folder] = stamp_of(self)
            return sums.seen[self.folder]
        sums.seen = {}
        try:
            return stamp(self)
        finally:
            del sums.seen

    crate.below, crate.stamp = below, stamp
