"""Checks that each contract, clause and specification word which the documents name is there.

In docs/PROVED.md, docs/GLOSSARY.md, docs/DECISIONS.md and crates/*/README.md, a code span that is a link's text names

    [`Type::function: clause, clause`](file.rt)    clauses of the contract of that function in that file
    [`Word: field, field`](file.antt)              a word that is defined in that file, and fields of its record

and without a colon the function or the word alone; several spans, with commas between them, name as many. The target
may be a label of the document (`[label]: file`). A fenced block that begins with `// Type::function (file.rt)` or
`-- Word (file.antt)`, a path from the root, quotes clauses of that contract or fields of that definition. Every other
link to a file has to lead to one.
"""
import glob
import os
import re

from tests.harness import ROOT
from tests.texts import report

DOCUMENTS = ["docs/PROVED.md", "docs/GLOSSARY.md", "docs/DECISIONS.md"]

LINK = re.compile(r"\[([^][]+)\](?:\(([^)\s]+)\)|\[([^]]+)\])")
SPANS = re.compile(r"`[^`]+`(?:,\s+`[^`]+`)*")
LABEL = re.compile(r"^\[([^]]+)\]: (\S+)$", re.M)
# A clause that is named without a file: nothing could say whether it is there.
LOOSE = re.compile(r"(?<!\[)`[A-Za-z_]\w*(?:::\w+)*: [a-z_]\w*(?:, [a-z_]\w*)*`")
QUOTED = re.compile(r"^(?://|--) (\S+) \((\S+)\)$")
FENCE = re.compile(r"^```.*?^```$", re.M | re.S)


def read(path):
    with open(path, encoding="utf-8") as file:
        return file.read()


def texts(path):
    """The functions or words that a file defines, each with its text."""
    return contracts(path) if path.endswith(".rt") else words(path)


def flat(text):
    """The text on one line, without comments."""
    return " ".join(re.sub(r"(?m)^\s*(//|--).*$", "", text).split())


def contracts(path):
    """The functions of a file, each with the text from its head to its body."""
    found, owner, lines = {}, "", read(path).split("\n")
    for at, line in enumerate(lines):
        if re.match(r"(pub(\(\w+\))? )?(impl|trait)\b", line):
            head = " ".join(lines[at:at + 12]).split("{")[0].split(" where ")[0]
            while "<" in head and head != (head := re.sub(r"<[^<>]*>", "", head)):
                pass
            head = head.split(" for ")[-1].split(":")[0]
            owner = re.findall(r"\w+", head)[-1]
        elif line == "}":
            owner = ""
        if match := re.match(r"(\s*)(?:pub(?:\(\w+\))? )?fn (\w+)", line):
            space, name = match.groups()
            end, begun = at, False
            # A body opens on a line of its own once clauses have come, and else at the end of the head.
            while not (lines[end] in (space + "{", space + "{}") or lines[end].endswith(";")
                       or not begun and lines[end].endswith(("{", "}"))):
                end += 1
                begun = begun or re.match(r"\s*(ensures|requires)\b", lines[end]) is not None
            key = f"{owner}::{name}" if space and owner else name
            found[key] = found.get(key, "") + "\n".join(lines[at:end + 1]) + "\n"
    return found


def words(path):
    """The words that a file of specifications defines, each with its text."""
    parts = re.split(r"(?m)^(?=(?:abbrev |unfoldable )?pub (?!(?:use|mod)\b))", read(path))
    heads = [(re.match(r"(?:abbrev |unfoldable )?pub (?:record |data )?([^\s:]+)", part), part) for part in parts]
    return {head.group(1): re.split(r"(?m)^(?:--|use )", part)[0] for head, part in heads if head}


def lacking(named, path):
    """What isn't there of a function with its clauses, or of a word with its fields; none of it where all is."""
    name, _, parts = named.partition(": ")
    text = texts(path).get(name)
    if text is None:
        return [f"no {name}"]
    form = r"(?:ensures|requires) {} \{{" if path.endswith(".rt") else r"(?m)^\s+(?:pub )?{} :"
    parts = filter(None, parts.split(", "))
    return [f"no {part} of {name}" for part in parts if not re.search(form.format(part), text)]


def misquoted(block):
    """What a fenced block quotes that isn't so, or None where it quotes nothing."""
    lines = block.split("\n")[1:-1]
    match = QUOTED.match(lines[0]) if lines else None
    if not match:
        return None
    name, path = match.groups()
    if not os.path.isfile(os.path.join(ROOT, path)):
        return [f"no file {path}"]
    there = flat(texts(os.path.join(ROOT, path)).get(name, ""))
    clauses = re.split(r"(?m)^(?=\s*(?:ensures|requires|pub) )", "\n".join(lines[1:]))
    return [f"{name} doesn't say: {flat(clause)}" for clause in clauses if flat(clause) not in there or not there]


def looks_of(document):
    """What is looked at in a document, a list of what is wrong with it each."""
    path = os.path.join(ROOT, document)
    if not os.path.isfile(path):
        return [["it isn't there"]]
    text = read(path)
    labels = dict(LABEL.findall(text))
    found = [wrong for block in FENCE.findall(text) if (wrong := misquoted(block)) is not None]
    prose = FENCE.sub("", text)
    found += [[f"{span} has no file"] for span in LOOSE.findall(prose)]
    for named, target, label in LINK.findall(prose):
        target = (target or labels.get(label, f"[{label}]")).split("#")[0]
        if target.startswith("http") or not target:
            continue
        file = os.path.normpath(os.path.join(os.path.dirname(path), target))
        if not os.path.exists(file):
            found.append([f"no file {target}"])
        elif SPANS.fullmatch(named) and file.endswith((".rt", ".antt")):
            found += [lacking(span, file) for span in re.findall(r"`([^`]+)`", named)]
        else:
            found.append([])
    return found


def looks():
    pages = [os.path.relpath(path, ROOT) for path in sorted(glob.glob(os.path.join(ROOT, "crates/*/README.md")))]
    for page in DOCUMENTS + pages:
        for wrong in looks_of(page):
            yield f"{page}:", "; ".join(wrong) or None


def main(_words):
    return report("clauses", looks())
