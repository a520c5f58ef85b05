#!/usr/bin/env python3
"""The proved libraries for C, target/staticlib/libNAME.a, for NAME parser, writer and labels.

    tools/library.py [NAME..]    makes them, all three without a name, and prints where they are; host/libraries calls it

libNAME.a is what `rt lib` writes of the crate NAME_c, which exports what C links. It is made anew where a .rt file of the crates is newer.
Needs Python 3 and rt. Exit status 1 if a crate is not proved, 2 for another name.
"""
import glob
import os
import shutil
import subprocess
import sys

ROOT = os.path.dirname(os.path.dirname(os.path.abspath(__file__)))
NAMES = ("parser", "writer", "labels")


def library(name):
    """the library of a crate; it is proved and written anew where a .rt file of the crates is newer"""
    path = os.path.join(ROOT, "target", "staticlib", "lib%s.a" % name)
    sources = glob.glob(os.path.join(ROOT, "crates", "*", "src", "*.rt"))  # not the copies that rt keeps in out/
    if not os.path.exists(path) or any(os.path.getmtime(source) > os.path.getmtime(path) for source in sources):
        exporting = os.path.join(ROOT, "crates", name + "_c")
        subprocess.run(["rt", "lib"], cwd=exporting, stdout=sys.stderr, check=True)
        os.makedirs(os.path.dirname(path), exist_ok=True)
        shutil.copyfile(os.path.join(exporting, "out", "lib%s_c.a" % name), path)
    return path


def main():
    names = sys.argv[1:] or NAMES
    for name in names:
        if name not in NAMES:
            print("library.py: no library %s; there are %s" % (name, ", ".join(NAMES)), file=sys.stderr)
            return 2
    for name in names:
        try:
            print(os.path.relpath(library(name)))
        except subprocess.CalledProcessError:
            print("library.py: rt lib fails in crates/%s_c" % name, file=sys.stderr)
            return 1
    return 0


if __name__ == "__main__":
    sys.exit(main())
