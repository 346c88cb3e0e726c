"""Looks that a word of the specifications is defined in one crate alone, but for those that .ci/words.txt names.

A line of that file is a word, the crates that define it, and after a colon why. A word that another crate defines as
well is a fault, and so is a line that is no longer so.
"""
import glob
import os
import re
from collections import defaultdict

from tests.harness import ROOT
from tests.texts import report

DEFINES = re.compile(r"(?m)^(?:(?:abbrev|record|data|unfoldable|opaque|pub)\s+)+([^\s:(){},]+)\s*[:({]")


def defined():
    """The crates that define each word."""
    crates = defaultdict(set)
    for path in glob.glob("crates/*/specs/*.antt", root_dir=ROOT):
        with open(os.path.join(ROOT, path), encoding="utf-8") as file:
            for word in DEFINES.findall(file.read()):
                crates[word].add(path.split("/")[1])
    return crates


def allowed():
    """The crates that may define each word that several do."""
    crates = defaultdict(set)
    with open(os.path.join(ROOT, ".ci", "words.txt"), encoding="utf-8") as file:
        for line in file:
            if line.strip() and not line.startswith("#"):
                word, *names = line.partition(":")[0].split()
                crates[word].update(names)
    return crates


def looks():
    crates, listed = defined(), allowed()
    for word in sorted({*crates, *listed}):
        found = crates.get(word, set())
        wanted = listed.get(word, found if len(found) < 2 else set())
        where, may = " ".join(sorted(found)) or "no crate", " ".join(sorted(wanted)) or "one"
        yield word, None if found == wanted else f"is defined in {where}, and .ci/words.txt allows {may}"


def main(_words):
    return report("words", looks())
