"""Looks that no call whose steps a contract bounds does work that isn't counted.

In ar_index and ar_book a function counts its steps if it takes `steps: &mut Steps`. Such a function may not start a
count of its own (`Steps::new`). Each of its loops ticks, also one that is a value; it ticks if it calls itself, or does
so by others; it walks no list or range by a method; and it calls only functions that count too, or that do none of this
in them and in what they call. It goes by the names of functions: where two have one name, both are meant. What may be a
recursion it knows more exactly: a call without `steps` is of no function that counts; one by `self`, by a parameter, or
by a field or an item of one is of its type; and one by any other value is followed only with `steps`. A method that has
the name of a walk but is one of these crates is a walk only of what a call returned. Look-ups in a map are left out.
"""
import glob
import os
import re

from tests.harness import ROOT
from tests.texts import report

CRATES = ["ar_index", "ar_book"]
# Loops that needn't tick, and why.
EXCEPT = {
    "refresh_blank": "its bound counts the groups that it refreshes, and says so",
    "first": "each round counts at the chunk that it looks at",
}
TICK = "steps.tick()"
LOOP = re.compile(r"\b(?:for|while|loop)\b(?!<)")
# Methods that go through the items of a list, a range or another iterator.
WALKS = r"""
    all any binary_search\w* chunk\w* clone_from_slice collect concat contains copy_from_slice copy_within count
    dedup\w* drain ends_with extend\w* fill\w* find\w* fold for_each into_iter is_sorted\w* iter iter_mut max_by\w*
    min_by\w* nth\w* partition\w* position product reduce repeat retain\w* reverse rfind rfold rotate_\w+ rposition
    sort\w* splice split\w* starts_with sum swap_with_slice to_vec try_fold try_for_each unzip windows
""".split()
WALK = re.compile(rf"(?:\.|::)(?:{'|'.join(WALKS)})(?:::<[^>]*>)?\(|\.(?:min|max)\(\)")
CALL = re.compile(r"(?:(\.?[\w\])?]+)(\.|::))?\b(\w+)(?:::<[^>]*>)?\(")
PARAMETER = re.compile(r"\b(\w+): &?(?:'\w+ )?(?:mut )?(\w+)")
# A field of a struct, and the type of it or, if it is a list, of its items; a field, or an item of one, before a call.
FIELD = re.compile(r"^    (?:pub(?:\([^)]*\))? )?(\w+): (?:Vec<)?(\w+)>?,$", re.M)
BY_FIELD = re.compile(r"\.(\w+)(?:\[\w+\])?$")


def inside(text, at, opening="{", closing="}"):
    """What is between the next opening bracket and the one that closes it; all that is left where none does."""
    start = text.find(opening, at)
    depth = 0
    for end in range(max(start, 0), len(text)):
        depth += (text[end] == opening) - (text[end] == closing)
        if depth == 0 and end >= start:
            return text[start + 1 : end]
    return text[start + 1 :]


def body_of_loop(text, at):
    """The body of the loop whose word ends here: from the first brace that is in no other bracket."""
    depth = 0
    for place in range(at, len(text)):
        depth += (text[place] in "([") - (text[place] in ")]")
        if text[place] == "{" and depth == 0:
            return inside(text, place)
    return ""


class Function:
    """A function: where it is, its type and name, whether it counts steps, and its body."""

    def __init__(self, where, owner, name, head, body):
        self.where, self.owner, self.name = where, owner, name
        self.counts = "steps: &mut Steps" in head
        self.types = dict(PARAMETER.findall(head)) | {"self": owner}
        # (a brace in a text opens no block)
        self.text = re.sub(r"'(\\.|[^'\\])'", "' '", re.sub(r'"(\\.|[^"\\])*"', '""', "\n".join(body)))
        self.calls = {found[3] for found in CALL.finditer(self.text)}
        self.starts = "Steps::new" in self.text
        self.ticks = TICK in self.text
        self.loops = list(LOOP.finditer(self.text))
        self.recurs = False

    def walks_by_method(self, by_name):
        """Whether it goes through a list, a range or another iterator by a method."""
        for found in WALK.finditer(self.text):
            name = re.search(r"\w+", found[0])[0]
            if name not in by_name or self.text[: found.start()].endswith(")"):
                return True
        return False

    def silent_loops(self):
        """The loops without a tick."""
        for found in self.loops:
            if TICK not in body_of_loop(self.text, found.end()):
                yield self.text[found.start() :].split("\n")[0].strip()

    def called(self, by_name, fields):
        """The functions that it may call, each as precisely as its text says which."""
        for found in CALL.finditer(self.text):
            receiver, by, name = found[1], found[2], found[3]
            passes = "steps" in inside(self.text, found.end() - 1, "(", ")").lower()
            for other in by_name.get(name, []):
                if by is None:
                    is_meant = other.owner is None
                elif by == "::":
                    is_meant = other.owner == (self.owner if receiver == "Self" else receiver)
                elif receiver in self.types:
                    is_meant = other.owner == self.types[receiver]
                elif (field := BY_FIELD.search(self.text[: found.end(1)])) and field[1] in fields:
                    is_meant = other.owner in fields[field[1]]
                else:
                    is_meant = passes
                if is_meant and other.counts == passes:
                    yield other


def functions_in(where, text):
    """The functions of a file's text that have a body."""
    lines = [re.sub(r"//.*", "", line) for line in text.split("\n")]
    at, owner = 0, None
    while at < len(lines):
        if re.match(r"(?:pub )?(?:unsafe )?(?:impl|trait)\b", lines[at]):
            head = " ".join(lines[at : at + 12]).split("{")[0].split(" where ")[0]
            while head != (head := re.sub(r"<[^<>]*>", "", head)):
                pass
            owner = re.findall(r"\w+", head.split(" for ")[-1].split(":")[0])[-1]
        elif lines[at] == "}":
            owner = None
        found = re.match(r"( *)(?:pub(?:\([^)]*\))? )?fn (\w+)", lines[at])
        if found:
            indent, first = found[1], at
            # The body begins with the head's last line, or after the clauses.
            clauses = ("requires", "ensures")
            while lines[at] != indent + "{" and (not lines[at].endswith(" {") or lines[at].strip().startswith(clauses)):
                at += 1
            start = at + 1
            while lines[at] != indent + "}":
                at += 1
            head = " ".join(lines[first:start]).split(" requires ")[0].split(" ensures ")[0]
            yield Function(where, owner if indent else None, found[2], head, lines[start:at])
        at += 1


def find_recursion(functions, by_name, fields):
    """Notes which functions call themselves, directly or by others."""
    called = {it: set(it.called(by_name, fields)) for it in functions}
    for it in functions:
        reached, left = set(), list(called[it])
        while left:
            other = left.pop()
            if other not in reached:
                reached.add(other)
                left += called[other]
        it.recurs = it in reached


def looks_at(functions, fields):
    """What is looked at in these functions of structs with these fields, and what is wrong with it or None."""
    by_name = {}
    for it in functions:
        by_name.setdefault(it.name, []).append(it)
    find_recursion(functions, by_name, fields)
    walks = {it: it.walks_by_method(by_name) for it in functions}
    # The functions that work without counting, or call one that does.
    hidden = {it.name for it in functions if not it.counts and (walks[it] or it.loops or it.starts or it.recurs)}
    grown = True
    while grown:
        more = {it.name for it in functions if not it.counts and it.calls & hidden}
        grown, hidden = not more <= hidden, hidden | more
    for it in functions:
        if it.counts:
            faults = [f"calls {name}, which doesn't count its steps" for name in sorted(it.calls & hidden)]
            faults += ["starts a count of its own"] * it.starts
            faults += [f"has a loop without a tick: {line}" for line in it.silent_loops() if it.name not in EXCEPT]
            faults += ["calls itself without a tick"] * (it.recurs and not it.ticks)
            faults += ["walks a list by a method"] * walks[it]
            yield f"{it.name} of {it.where}", "; ".join(faults) or None


def looks():
    paths = [path for crate in CRATES for path in sorted(glob.glob(f"crates/{crate}/src/*.rt", root_dir=ROOT))]
    functions, fields = [], {}
    for path in paths:
        if not path.endswith("/steps.rt"):
            with open(os.path.join(ROOT, path), encoding="utf-8") as file:
                text = file.read()
            functions += functions_in(path, text)
            for name, of in FIELD.findall(text):
                fields.setdefault(name, set()).add(of)
    yield from looks_at(functions, fields)


def main(_words):
    return report("steps", looks())
