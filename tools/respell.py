#!/usr/bin/env python3
"""Brings the repository's own names of definitions and lemmas to today's spelling: snake case, types in camel case.

    tools/respell.py [FOLDER]

FOLDER is the top of a checkout that /opt/rattle/port/port.py has turned; without it, this one. Names that the files of specs/ and proofs/ declare and that have a dash
are respelled wherever they stand: in .antt files, in the clauses and imports of .rt files, in must-fail edits, and between backticks in comments and pages. A name that
a file imports from a library stays there. What the toolchain names (the goals and steps of a function's proof) is not respelled. Prints what was renamed, and exits
with 1 where two names of a file fall together.
"""
import os
import re
import sys

sys.dont_write_bytecode = True
NAME = r"""[^\s(){}.;,@"«»`]+"""
TOKEN = re.compile(NAME)
DECLARED = re.compile(r"^\s*(?:(?:pub|abbrev|unfoldable|data|record) )*((?:%s )*?%s) (?:\{[^}]*\} |\([^)]*\) )*:(?: |$)" % (NAME, NAME))
GOALS = re.compile(r": (?:\([^)]*\) → )?(?:tie|lts)\.")
IMPORT = re.compile(r"^(?:pub |ghost )*use ([^\s{;]+?)\.\{([^}]*)\}", re.M)
OWN = re.compile(r"Rattle\.(\w+)\.")


def paths(root, *endings):
    for folder, folders, files in os.walk(root):
        folders[:] = sorted(it for it in folders if it not in ("out", "target", ".git"))
        for it in sorted(files):
            if it.endswith(endings):
                yield os.path.join(folder, it)


def read(path):
    with open(path, encoding="utf-8") as file:
        return file.read()


def declared(text):
    """the names that a file declares, but for answers to goals"""
    for line in text.splitlines():
        found = None if line.startswith("--") or GOALS.search(line) else DECLARED.match(line)
        if found:
            yield from (it for it in found.group(1).split() if not it.startswith("+"))


def respelled(name):
    if name[0].isupper():
        return "".join(it[:1].upper() + it[1:] for it in name.split("-"))
    return name.replace("-", "_")


def of_libraries(text, crates):
    """the names that a file imports from a library, by the name that they have in the file"""
    names = set()
    for path, items in IMPORT.findall(text):
        own = OWN.match(path)
        if not (own and own.group(1) in crates):
            for item in items.split(","):
                names.update(item.split(" as ")[-1].split())
    return names


def turned(text, names, stay):
    def one(found):
        name = found.group(0)
        if name in names and name not in stay:
            return names[name]
        # a definition that code brings in beside its own function ends so
        return respelled(name) if name.endswith("-def") else name

    return TOKEN.sub(one, text)


def lines(text, names, stay, comment):
    out = []
    for line in text.split("\n"):
        at = line.find(comment + " ") if line.lstrip().startswith(comment) else -1
        if at < 0:
            out.append(turned(line, names, stay))
        else:
            out.append(line[:at] + quoted(line[at:], names))
    return "\n".join(out)


def quoted(text, names):
    return re.sub(r"`([^`\n]+)`", lambda it: "`" + turned(it.group(1), names, set()) + "`", text)


def main():
    root = sys.argv[1] if len(sys.argv) > 1 else os.path.dirname(os.path.dirname(os.path.abspath(__file__)))
    inside = os.path.join(root, "crates")
    crates = set(os.listdir(inside))
    names, before_port, all_names = {}, {}, set()
    for path in paths(inside, ".antt"):
        for name in declared(read(path)):
            all_names.add(name)
            if "-" in name:
                names[name] = respelled(name)
            elif "_" in name[1:-1]:
                # port.py respelled it in the sources alone
                before_port[name.replace("_", "-")] = name
    before_port.update(names)
    clashes = 0
    for path in paths(inside, ".antt", ".rt", ".edit"):
        old = read(path)
        stay = of_libraries(old, crates)
        comment = {"antt": "--", "rt": "//", "edit": "file:"}[path.rsplit(".", 1)[1]]
        new = lines(old, before_port if path.endswith(".edit") else names, stay, comment)
        before = set(TOKEN.findall(old))
        for name in sorted(before):
            if name in names and name not in stay and names[name] in before & all_names:
                clashes += 1
                print("clash: %s: %s and %s" % (os.path.relpath(path, root), name, names[name]))
        if new != old:
            with open(path, "w", encoding="utf-8") as file:
                file.write(new)
    for folder in ("docs", "host", "bench", "compare", "sheets", "tools"):
        for path in paths(os.path.join(root, folder), ".md"):
            old = read(path)
            new = quoted(old, before_port)
            if new != old:
                with open(path, "w", encoding="utf-8") as file:
                    file.write(new)
    path = os.path.join(root, "README.md")
    old = read(path)
    with open(path, "w", encoding="utf-8") as file:
        file.write(quoted(old, before_port))
    print("renamed=%d clashes=%d" % (len(names), clashes))
    return 1 if clashes else 0


if __name__ == "__main__":
    sys.exit(main())
