"""The published files that are compiled, each known by its SHA-256 in compare/oracle/SOURCES.sha256. Needs Python 3."""
import hashlib
import os
import sys

ROOT = os.path.dirname(os.path.dirname(os.path.abspath(__file__)))
LIST = os.path.join(ROOT, "compare", "oracle", "SOURCES.sha256")


def differing(sources):
    """the files of the list that the folder does not have, or has otherwise"""
    with open(LIST) as rows:
        for known, name in map(str.split, rows):
            path = os.path.join(sources, name)
            if not os.path.exists(path):
                yield name
                continue
            with open(path, "rb") as file:
                if hashlib.sha256(file.read()).hexdigest() != known:
                    yield name


def warn(sources):
    """says on stderr where the folder differs from the list: what the documents say of the published parser is of the files in the list"""
    for name in differing(sources):
        print("warning: %s is missing in %s, or is not the file of compare/oracle/SOURCES.sha256" % (name, sources), file=sys.stderr)
