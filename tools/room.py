"""What the writer and the check of labels keep in words of their own, by their sources: how many words the decision has, so that what stands before so many trees
is forgotten, and how many enclosing nodes the check has entries for."""
import os
import re

CRATES = os.path.join(os.path.dirname(os.path.dirname(os.path.abspath(__file__))), "crates")


def constant(crate, source, name):
    """a length that stands in a source as a number"""
    with open(os.path.join(CRATES, crate, "src", source + ".rt"), encoding="utf-8") as text:
        return int(re.search(r"^const %s: usize = (\d+);$" % name, text.read(), re.MULTILINE).group(1))


ROOM = constant("writer", "lib", "ROOM")
ENTRIES = constant("labels", "lib", "ROOM") // constant("labels", "entries", "ENTRY")
# Up to so many records the check has fewer words, and so fewer entries.
FEW_RECORDS = constant("labels", "lib", "SMALL_ROOM")
FEW_ENTRIES = FEW_RECORDS // constant("labels", "entries", "ENTRY")
