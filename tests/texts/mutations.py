"""Tries mutations: bugs planted in the code, each of which the prover has to refuse at the clause that is named for it.

    .ci/mutations [NAME ..]           those of these crates, or of all
    .ci/mutations --tell [NAME ..]    prints what refuses each
    .ci/mutations --read [NAME ..]    proves nothing: whether each says what breaks and can be applied, as the gate asks

The gate tries those of crates/NAME/must-fail/*.edit, a file each; all others are entries of crates/NAME/mutations, with
blank lines between them. An entry, whose first line is missing in a file of its own:

    name_of_the_bug
    breaks: what would go wrong
    refused: memory::MemDisk::new, filled
    file: src/memory.rt
    old: TEXT
    new: TEXT

'refused' names a function and the clause, or the goal of a loop or a call, that the check says is not proved; each
'old' stands at one place of the file or, after a line 'in: memory::MemDisk::new', of that function. In an entry it is
found by its tokens where it doesn't stand there as it is, and `$a` is any name, the same in 'old' and 'new': so an
entry survives another layout and another name. A text goes on in lines that begin with four spaces. Mutations of
different functions are tried together, since a function is proved from the contracts of those that it calls; one that
isn't refused so is tried again alone.
"""
import glob
import os
import re
import shutil
import subprocess
import sys
import tempfile
from collections import defaultdict
from concurrent.futures import ThreadPoolExecutor
from dataclasses import dataclass, field
from functools import cache

from tests.harness import ROOT, text_of
from tests.texts import report

CHECK = ["rt", "check", "--jobs", "1"]


@dataclass
class Mutation:
    name: str
    breaks: str = ""
    refused: str = ""
    changes: list = field(default_factory=list)  # (file, function or None, old, new)
    places: set = field(default_factory=set)  # the functions that it changes
    is_edit: bool = False  # whether it is a file of must-fail, whose texts stand as they are
    unread: str = ""  # a line that means nothing

    def function(self):
        return self.refused.partition(", ")[0]

    def keys(self):
        """The functions that it changes and that refuse it. The name says which of a type's impls: 'Port+R::new'."""
        without_impl = re.sub(r"\+[^:]*", "", self.function())
        return (self.places - {without_impl} | {self.function()}) - {""}

    def is_wide(self):
        """Whether all that it changes is in no function, as a constant, so that the whole crate is checked."""
        return self.places == {""}

    def clause(self):
        return self.refused.partition(", ")[2]


def parsed(name, lines):
    """The mutation that these lines describe."""
    mutation, file, function, old, last = Mutation(name), None, None, None, ""
    for line in lines:
        key, _, value = line.partition(": ")
        if line.startswith("    ") and last == "old":
            old += " " + line.strip()
            continue
        if line.startswith("    ") and last.startswith("new"):
            mutation.changes[-1] = (*mutation.changes[-1][:3], mutation.changes[-1][3] + " " + line.strip())
            continue
        last = key
        if key == "breaks":
            mutation.breaks = value
        elif key == "refused":
            mutation.refused = value
        elif key == "file":
            file, function = value, None
        elif key == "in":
            function = value
        elif key == "old":
            old = value
        elif key in ("new", "new:"):
            mutation.changes.append((file, function, old, value))
        elif line.strip():
            mutation.unread = line.strip()
    return mutation


def mutations_of(folder):
    """All mutations of a crate."""
    found = []
    edits = os.path.join(folder, "must-fail")
    for edit in sorted(os.listdir(edits)) if os.path.isdir(edits) else []:
        with open(os.path.join(edits, edit), encoding="utf-8") as file:
            found.append(parsed(edit.removesuffix(".edit"), file.read().split("\n")))
            found[-1].is_edit = True
    listed = os.path.join(folder, "mutations")
    if os.path.exists(listed):
        with open(listed, encoding="utf-8") as file:
            for entry in re.split(r"\n\n+", file.read().strip("\n")):
                lines = [line for line in entry.split("\n") if not line.startswith("#")]
                if lines:
                    found.append(parsed(lines[0], lines[1:]))
    return found


@cache
def module_of(folder, owner):
    """The module that defines a type, as the names of its functions have it."""
    for path in glob.glob("src/**/*.rt", root_dir=folder, recursive=True):
        with open(os.path.join(folder, path), encoding="utf-8") as file:
            if re.search(r"\b(struct|enum) " + owner + r"\b", file.read()):
                return re.sub(r"^src/|(/?(lib|main|mod))?\.rt$", "", path).replace("/", "::")
    return ""


def function_at(folder, path, text, at):
    """The function in which a place of a file lies, as 'memory::MemDisk::new'; '' where it lies in none."""
    module = re.sub(r"^src/|(/?(lib|main|mod))?\.rt$", "", path).replace("/", "::")
    owner = of_trait = name = ""
    # (the head of a block may take several lines)
    heads = re.sub(r"^impl\b[^{;]*\{", lambda head: " ".join(head[0].split()), text[:at], flags=re.MULTILINE)
    for line in heads.split("\n"):
        head = re.match(r"impl(?:<.*?>+)? (?:(\w+)(?:<.*>)? for )?(\w+)", line)
        if head:
            owner, of_trait = head[2], head[1] or ""
        elif line.startswith("}"):
            owner = of_trait = name = ""
        found = re.match(r"\s*(?:pub(?:\([^)]*\))? )?(?:const )?(?:unsafe )?fn (\w+)", line)
        if found:
            name = found[1]
    # (the kit names what a trait's impl has by the impl's own module, and else by that of the type)
    module = module_of(folder, owner) if owner and not of_trait else module
    return "::".join(part for part in (module, owner + of_trait, name) if part) if name else ""


@cache
def pattern_of(old):
    """The tokens of a text, with any space between them; `$a` is a name, the same one at each place."""
    pattern, last, seen = "", "", set()
    for token in re.findall(r"\$\w+|\w+|\S", old):
        is_word = re.match(r"[$\w]", token) is not None
        pattern += (r"\s+" if is_word and re.match(r"[$\w]", last) else r"\s*") if last else ""
        last, text = token, re.escape(token)
        if token.startswith("$") and is_word and token != "$":
            name = token[1:]
            text = f"(?P={name})" if name in seen else rf"(?P<{name}>[A-Za-z_]\w*)"
            seen.add(name)
        pattern += rf"(?<!\w){text}(?!\w)" if is_word else text
    return re.compile(pattern)


def matches(text, old):
    """The places at which a text stands: as it is or, if it doesn't, by its tokens."""
    return list(re.finditer(re.escape(old), text)) or list(pattern_of(old).finditer(text))


def changed(text, old, new, is_meant=lambda end: True):
    """A text with `new` in place of `old`, and where that ended; None where it isn't at one place that is meant."""
    found = [place for place in matches(text, old) if is_meant(place.end())]
    if len(found) != 1:
        return None
    names = found[0].groupdict()
    new = re.sub(r"\$(\w+)", lambda name: names.get(name[1], name[0]), new)
    return text[: found[0].start()] + new + text[found[0].end() :], found[0].end()


def applied(mutation, folder):
    """The texts of the files that a mutation changes, or None where it can't be applied."""
    texts = {}
    for path, function, old, new in mutation.changes:
        if path not in texts:
            with open(os.path.join(folder, path), encoding="utf-8") as file:
                texts[path] = file.read()
        text = texts[path]
        found = changed(text, old, new, lambda end: function in (None, function_at(folder, path, text, end)))
        if found is None or mutation.is_edit and text.count(old) != 1:
            return None
        mutation.places.add(function_at(folder, path, text, found[1]))
        texts[path] = found[0]
    return texts if mutation.changes else None


def change(mutations, folder):
    """Applies mutations that change different functions; one that no longer fits beside the others is left out."""
    for mutation in mutations:
        for path, text in (applied(mutation, folder) or {}).items():
            with open(os.path.join(folder, path), "w", encoding="utf-8") as file:
                file.write(text)


def refusals(crate, folder, said):
    """What a check says is not proved: the clauses by function. What the prover doesn't cover is no clause."""
    found = defaultdict(set)
    for line in said.split("\n"):
        noted = re.match(r"fn " + crate + r"::(\S+): .*did not prove (`.*)", line)
        if noted:
            found[noted[1]].update(goal for goal in re.findall(r"`([^`]*)`", noted[2]) if "::" not in goal)
        noted = re.match(r"fn " + crate + r"::(\S+): no proof: expected `\w+_spec`", line)
        if noted:
            found[noted[1]].add("-clause-(not covered)")
        noted = re.match(r"\./(proofs/(\S+)/\w+\.antt):(\d+):\d+: error: `([^`]*)`(.*)", line)
        # (a proof that names what the mutation took away says nothing of a clause)
        if noted and not re.search(r"has no `|has no field|is not in scope|was not admitted", noted[5]):
            function = noted[2].replace("/", "::")
            found[function].add(noted[4] + field_at(folder, noted[1], int(noted[3]), clauses_of(folder, function)))
        noted = re.match(r"note: (src/\S+?):(\d+):\d+: it is not proved .*\(`([^`]*)`\)", line)
        if noted:
            with open(os.path.join(folder, noted[1]), encoding="utf-8") as file:
                lines = file.read().split("\n")
            found[function_at(folder, noted[1], "\n".join(lines), len("\n".join(lines[: int(noted[2])])))].add(noted[3])
    return {function: {clause_of(goal, folder, function) for goal in goals} for function, goals in found.items()}


def field_at(folder, path, number, clauses):
    """'-clause-' and the clause that a line of a proof is about, where one record proves all of them; else ''."""
    with open(os.path.join(folder, path), encoding="utf-8") as file:
        lines = file.read().split("\n")
    for line in reversed(lines[:number]):
        field = re.match(r" +(\w+) = ", line)
        if field and field[1] in clauses:
            return f"-clause-{field[1]}"
        if not line.startswith(" "):
            break
    return ""


def clause_of(goal, folder, function):
    """The clause that a goal is about, or the goal's own name. A goal of a contract of one clause names none."""
    last = goal.rpartition("-clause-")[2]
    if last != goal or not re.match(r"returns(-|$)", goal):
        return last
    named = clauses_of(folder, function)
    return goal if len(named) > 1 else named[0] if named else "ensures"


def clauses_of(folder, function):
    """The names of the clauses that a function ensures."""
    for path in glob.glob("src/**/*.rt", root_dir=folder, recursive=True):
        with open(os.path.join(folder, path), encoding="utf-8") as file:
            text = file.read()
        for head in re.finditer(r"\bfn " + function.rpartition("::")[2] + r"\b", text):
            if function_at(folder, path, text, head.end()) == function:
                contract = re.split(r"\n\s*\{\n|\) (?:-> [^\n]+ )?\{\n", text[head.end() :])[0]
                return re.findall(r"\n\s*ensures (\w+) \{", contract)
    return []


class Crate:
    """A crate in a room of its own, over the libraries that earlier checks have built."""

    def __init__(self, name, room, crates):
        self.name = name
        self.folder = os.path.join(room, "crates", name)
        self.sources = os.path.join(room, "src")
        os.makedirs(os.path.join(room, ".git"))
        shutil.copy(os.path.join(ROOT, "HANDLES"), room)
        lines = [line for line in text_of("crates.txt").splitlines(True) if line.split(":")[0] in crates]
        with open(os.path.join(room, "crates.txt"), "w", encoding="utf-8") as kept:
            kept.writelines(lines)
        for it in crates:
            how = {"copy_function": shutil.copy2}
            if it != name:
                how = {"copy_function": os.link, "ignore": shutil.ignore_patterns("incremental")}
            shutil.copytree(os.path.join(ROOT, "crates", it), os.path.join(room, "crates", it), **how)
        shutil.copytree(os.path.join(self.folder, "src"), self.sources)

    def check(self, mutations):
        """Checks the functions that mutations change, and that refuse them: status, refusals, all that is said."""
        src = os.path.join(self.folder, "src")
        shutil.rmtree(src)
        shutil.copytree(self.sources, src)
        change(mutations, self.folder)
        words = []
        if not any(mutation.is_wide() for mutation in mutations):
            functions = set().union(*[mutation.keys() for mutation in mutations])
            words = [word for function in sorted(functions) for word in ("--only", function)]
        how = {"stdin": subprocess.DEVNULL, "stdout": subprocess.PIPE, "stderr": subprocess.STDOUT, "text": True}
        done = subprocess.run(CHECK + words, cwd=self.folder, errors="replace", **how)
        return done.returncode, refusals(self.name, self.folder, done.stdout), done.stdout


def batches(mutations):
    """Mutations in lists within which no two touch the same function."""
    lists = []
    for mutation in mutations:
        for seen, batch in lists:
            if not mutation.is_wide() and not mutation.keys() & seen:
                seen |= mutation.keys()
                batch.append(mutation)
                break
        else:
            # (nothing is tried together with a wide one)
            if not mutation.is_wide():
                lists.append((mutation.keys(), [mutation]))
    return [batch for _, batch in lists] + [[mutation] for mutation in mutations if mutation.is_wide()]


def tried(crate, batch):
    """Tries mutations together, and yields each with what it is refused at, and a fault or None."""
    status, found, said = crate.check(batch)
    if status and not found and len(batch) > 1:
        # One of them can't be read, and hides the others.
        half = len(batch) // 2
        yield from tried(crate, batch[:half])
        yield from tried(crate, batch[half:])
        return
    for mutation in batch:
        keys = found.keys() if mutation.is_wide() else mutation.keys()
        own = {function: clauses for function, clauses in found.items() if function in keys}
        if mutation.clause() in found.get(mutation.function(), ()) or own and not mutation.refused:
            yield mutation, own, None if mutation.refused else "it names no clause"
        elif len(batch) > 1:
            yield from tried(crate, [mutation])
        elif status == 0:
            yield mutation, {}, "what it changes is still proved"
        elif not found:
            first = next((line for line in said.split("\n") if ": error" in line), said[-200:])
            yield mutation, {}, f"it can't be read: {first[:200]}"
        else:
            yield mutation, found, f"it isn't refused at '{mutation.refused}', but at {shown(found)}"


def shown(found):
    return "; ".join(f"{function}, {' '.join(sorted(found[function]))}" for function in sorted(found))


def read(name, _crates):
    """Each mutation of a crate, and a fault or None by its text alone."""
    folder = os.path.join(ROOT, "crates", name)
    seen = set()
    for mutation in mutations_of(folder):
        fault = None
        if mutation.name in seen:
            fault = "its name is another's, too"
        elif not mutation.breaks:
            fault = "it doesn't say what breaks"
        elif mutation.unread:
            fault = f"it has a line that means nothing: {mutation.unread}"
        elif not applied(mutation, folder):
            fault = "an 'old' text isn't in its file once"
        seen.add(mutation.name)
        yield mutation, {}, fault


def results(name, crates):
    """Each mutation of a crate with what it is refused at, and a fault or None."""
    mutations = mutations_of(os.path.join(ROOT, "crates", name))
    with tempfile.TemporaryDirectory(prefix="mutations-") as room:
        crate = Crate(name, os.path.join(room, "tree"), crates)
        usable = [mutation for mutation in mutations if applied(mutation, crate.folder)]
        for mutation in mutations:
            if mutation not in usable:
                yield mutation, {}, "an 'old' text isn't in its file once"
        for batch in batches(usable):
            yield from tried(crate, batch)


def libraries():
    """The libraries of the repository below each crate."""
    with open(os.path.join(ROOT, "crates.txt"), encoding="utf-8") as file:
        lines = [line.split("#")[0].strip() for line in file]
    direct = {line.partition(":")[0].split()[0]: line.partition(":")[2].split() for line in lines if ":" in line}
    below = {}

    def walk(name):
        if name not in below:
            below[name] = {name}
            for it in direct[name]:
                if it in direct:
                    below[name] |= walk(it)
        return below[name]

    for name in direct:
        walk(name)
    return below


def looks(names=None):
    """Each mutation of these crates, or of all, and what its text alone shows to be wrong with it."""
    for name in names or libraries():
        for mutation, _, fault in read(name, None):
            yield f"{name}/{mutation.name}:", fault


def main(words):
    prints, reads = words[:1] == ["--tell"], words[:1] == ["--read"]
    names, below = words[prints or reads :], libraries()
    if any(name not in below for name in names):
        sys.exit("usage: .ci/mutations [--tell | --read] [NAME ..], crates of crates.txt")
    if reads:
        return report("mutations", looks(names))
    wanted = names or [name for name in below if mutations_of(os.path.join(ROOT, "crates", name))]
    passed = failed = 0
    with ThreadPoolExecutor(os.cpu_count()) as pool:
        for name, found in zip(wanted, pool.map(lambda name: list(results(name, below[name])), wanted)):
            for mutation, refused, fault in found:
                passed, failed = passed + (not fault), failed + bool(fault)
                if fault or prints:
                    print(f"{name}/{mutation.name}: {shown(refused) if prints and refused else fault}", flush=True)
    print(f"{passed} passed, {failed} failed")
    return failed > 0
