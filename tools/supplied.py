"""The supplied sheets with their canonical tokens, as the oracle's canonical.txt has them. Needs Python 3."""


def pairs(path):
    """of each sheet its tokens and its canonical tokens, each (kind, newline, value)"""
    found = []
    for row in open(path):
        if row.startswith("sheet"):
            found.append(([], []))
            now = found[-1][0]
        elif row.startswith("canonical"):
            now = found[-1][1]
        elif row.startswith("token="):
            now.append(tuple(int(field.split("=")[1]) for field in row.split()))
    return found
