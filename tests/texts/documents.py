"""Checks README.md, CHANGELOG.md, docs/*.md and crates/*/README.md: their width, their links, and what their commands
print.

A line has at most 120 columns, outside of tables, code and URLs. A relative link leads to a file or folder, and its
#anchor to a heading of a document. The figures of a row of README's table of speed are those of a row of
docs/PERFORMANCE.md. A fenced block of code is run by the word after its fence, unless `not-run` follows:

    console     A line that begins with '$ ' is run by bash, and prints the lines below it. One that ends with ' &' goes
                on beside the next ones, which begin at once, and the lines below it are the first that it prints.
    sh          The block is run by bash, and exits with 0.
    text FILE   Some lines of this script in its order, each with an answer to it after two spaces or more.

Commands run in a new folder with links to the start scripts, which run the built programs. 7117, 7118 and 7119 stand
for ports that are free.
"""
import glob
import os
import re
import subprocess
import tempfile

from tests.harness import ROOT, end_group, free_port, popen, program, text_of
from tests.texts import report

DOCUMENTS = ["README.md", "CHANGELOG.md", "docs/*.md", "crates/*/README.md"]
PROGRAMS = ["autoraid", "ar_client"]
PORTS = ["7117", "7118", "7119"]
WIDTH = 120
# A start script that finds a program out of date builds it, which takes longer.
SECONDS = 60


def parts_of(text):
    """A document's lines that are no code, with their numbers; its blocks: number, words after the fence, lines."""
    prose, blocks, block = [], [], None
    for number, line in enumerate(text.splitlines(), 1):
        if line.lstrip().startswith("```"):
            block = None if block else (number, line.strip(" `").split(), [])
            blocks += [block] if block else []
        elif block:
            block[2].append(line)
        elif not line.startswith("    "):
            prose.append((number, line))
    return prose, blocks


def flaw_of_width(prose):
    prose = [(number, line) for number, line in prose if not line.startswith("|")]
    wide = [number for number, line in prose if len(re.sub(r"https?://\S+", "", line)) > WIDTH]
    return f"{wide[0]}: wider than {WIDTH} columns, the first of {len(wide)} such lines" if wide else None


def anchors_of(path):
    """The anchors of a document's headings, as the usual hosts of repositories make them."""
    found = []
    for _, line in parts_of(text_of(path))[0]:
        if line.startswith("#"):
            anchor = re.sub(r"[^\w\- ]", "", line.lstrip("# ").lower()).replace(" ", "-")
            same = sum(re.fullmatch(re.escape(anchor) + r"(-\d+)?", other) is not None for other in found)
            found.append(f"{anchor}-{same}" if same else anchor)
    return found


def flaws_of_links(path, prose):
    """For each relative link, and each definition of one, what is wrong with it or None."""
    for number, line in prose:
        for targets in re.findall(r"\]\(([^)\s]+)\)|^\[[^\]]+\]: (\S+)", re.sub(r"`[^`]*`", "", line)):
            file, _, anchor = "".join(targets).partition("#")
            if re.match(r"\w+:", file):
                continue
            to = os.path.normpath(os.path.join(os.path.dirname(path), file)) if file else path
            if not os.path.exists(os.path.join(ROOT, to)):
                yield f"{number}: there is no {to}"
            elif anchor and (not to.endswith(".md") or anchor not in anchors_of(to)):
                yield f"{number}: {to} has no heading {anchor}"
            else:
                yield None


def flaws_of_figures(path, prose):
    """For each row of README's table of speed, that no row of PERFORMANCE has its figures, or None."""
    if path == "README.md":
        known = [set(re.findall(r"\d[\d,.]*", line)) for line in text_of("docs", "PERFORMANCE.md").splitlines()]
        for number, line in prose:
            figures = [cell.strip() for cell in line.split("|")[2:-1]]
            if line.startswith("|") and all(re.fullmatch(r"\d[\d,.]*", figure) for figure in figures):
                is_known = any(set(figures) <= row for row in known)
                yield None if is_known else f"{number}: docs/PERFORMANCE.md has no row with {figures}"


def flaw_of_console(start, lines):
    """What a command prints that isn't shown below it, or None."""
    beside, first = None, ""
    for shown in re.split(r"^\$ ", "\n".join(lines) + "\n", flags=re.MULTILINE)[1:]:
        command, _, wanted = shown.partition("\n")
        if command.endswith(" &"):
            beside, first = start(command.removesuffix(" &")), wanted
            continue
        said = start(command).communicate(timeout=SECONDS)[0]
        if said != wanted:
            return f"{command}: prints {said[-500:]!r}"
    return flaw_beside(beside, first) if beside else None


def flaw_beside(beside, first):
    """What is wrong with a command beside the others, which prints some lines first, or None."""
    said = beside.communicate(timeout=SECONDS)[0]
    if not said.startswith(first):
        return f"the command beside the others prints {said[:500]!r}"
    return "the command beside the others fails" if beside.returncode else None


def flaw_of_excerpt(start, file, rows):
    """What is answered to a line of a script that isn't shown after it, or None."""
    script, at = [line for line in text_of(file).splitlines() if line and not line.startswith("#")], 0

    def run(lines):
        text = "".join(f"{line}\n" for line in lines)
        return start(f"./autoraid run <<'END'\n{text}END").communicate(timeout=SECONDS)[0]

    for line, answer in (re.split(r" {2,}", row, maxsplit=1) for row in rows):
        said = None
        while said != answer + "\n":
            if line not in script[at:]:
                return f"{line}: answers {said!r}"
            at = script.index(line, at) + 1
            said = run(script[:at]).removeprefix(run(script[: at - 1]))
    return None


def flaw_of_block(words, lines):
    """What is wrong with a block of code, or None."""
    kind = words[0] if words else "text"
    if kind not in ("console", "sh", "text") or "not-run" in words or (kind == "text" and len(words) < 2):
        return None
    if not all(os.path.exists(program(name)) for name in PROGRAMS):
        return "the programs aren't built"
    started = []
    with tempfile.TemporaryDirectory() as room:
        for name in [*PROGRAMS, "examples", "docs"]:
            # (programs of another folder have no start scripts)
            is_elsewhere = name in PROGRAMS and os.environ.get("PROGRAMS")
            os.symlink(program(name) if is_elsewhere else os.path.join(ROOT, name), os.path.join(room, name))

        def start(command):
            started.append(popen(["bash", "-ec", command], stderr=subprocess.STDOUT, cwd=room))
            return started[-1]

        ports = {port: str(free_port()) for port in PORTS}
        lines = [re.sub("|".join(PORTS), lambda port: ports[port[0]], line) for line in lines]
        try:
            if kind == "console":
                return flaw_of_console(start, lines)
            if kind == "text":
                return flaw_of_excerpt(start, words[1], lines)
            said = start("\n".join(lines)).communicate(timeout=SECONDS)[0]
            return f"fails: {said[-500:]!r}" if started[0].returncode else None
        except (OSError, ValueError, subprocess.TimeoutExpired) as error:
            return str(error)
        finally:
            for process in started:
                end_group(process.pid)


def looks_of(path):
    """What is wrong with a document, and None for each look that finds nothing."""
    prose, blocks = parts_of(text_of(path))
    yield flaw_of_width(prose)
    yield from flaws_of_links(path, prose)
    yield from flaws_of_figures(path, prose)
    for number, words, lines in blocks:
        flaw = flaw_of_block(words, lines)
        yield f"{number}: {flaw}" if flaw else None


def paths():
    """The documents."""
    return [path for pattern in DOCUMENTS for path in sorted(glob.glob(pattern, root_dir=ROOT))]


def main(_words):
    return report("documents", ((f"{path}:", flaw) for path in paths() for flaw in looks_of(path)))
