"""Worked examples: `autoraid run` answers the scripts of tests/scenarios as they say.

A line `== NAME` begins a scenario, `== NAME [SETTINGS]` one on other arrays than four disks of four small extents
without a cache: `geometry=`, `disks=`, `extents=`, and `cache=` with the size for each of its runs. Then each line is
one of
    COMMAND, COMMAND = ANSWER    a line of the script, and the first line of its answer
      = ANSWER                   one more line of the answer
    "COMMAND"                    a line of the script that looks like a remark, or has spaces at its ends
    fault line N: KIND           how the script ends, if not well
    # ..                         a remark, as is an empty line
In `== bad lines: KIND` each line is a script of its own, between two good lines.
"""
import glob
import os
import re

from tests.harness import ROOT, Case, program, ran, text_of

FOLDER = "tests", "scenarios"
BEGINNING = "\n== "
BAD_LINES = "bad lines: "
SMALL = {"geometry": "small", "disks": "4", "extents": "4"}


def is_remark(line):
    return not line or line.startswith("#")


def unquoted(line):
    """A line of a script that stands in quotation marks, or None."""
    return line[1:-1] if len(line) > 1 and line[0] == line[-1] == '"' else None


class Scenario:
    """A scenario of a file: its name, its settings, its lines."""

    def __init__(self, text):
        heading, *lines = text.split("\n")
        self.name, settings = re.fullmatch(r"(.*?)(?: \[(.*)\])?", heading).groups()
        self.settings = dict(word.split("=") for word in (settings or "").split())
        self.lines = [line for line in lines if not is_remark(line)]

    def options(self):
        """The command line's words for each array that it is run on."""
        for cache in self.settings.get("cache", "0").split(","):
            settings = {**SMALL, **self.settings, "cache": cache}
            yield [word for name, value in settings.items() for word in (f"--{name}", value)]

    def script(self):
        """The lines of its script, each with the lines that answer it; and the fault that ends it, or ''."""
        rows, fault = [], ""
        for line in self.lines:
            if line.startswith("fault "):
                fault = line.removeprefix("fault ")
            elif line.startswith("  = "):
                rows[-1][1].append(line.removeprefix("  = "))
            elif (command := unquoted(line)) is not None:
                rows.append((command, []))
            else:
                command, equals, answer = line.partition(" = ")
                rows.append((command, [answer] if equals else []))
        return rows, fault

    def scripts(self):
        """The scripts that it stands for, in the same form."""
        if not self.name.startswith(BAD_LINES):
            return [self.script()]
        good, fault = "tur 0 0", f"line 2: {self.name.removeprefix(BAD_LINES)}"
        bad = [line if unquoted(line) is None else unquoted(line) for line in self.lines]
        return [([(good, ["check 05/25/00"]), (line, []), (good, [])], fault) for line in bad]


def scenarios_of(file):
    """The scenarios of a file, by its name without `.script`. Only remarks may stand before the first."""
    head, *texts = text_of(*FOLDER, f"{file}.script").split(BEGINNING)
    if not texts or not all(map(is_remark, head.split("\n"))):
        raise ValueError(f"{file}.script: a line stands before the first scenario, or there is none")
    return [Scenario(text) for text in texts]


class Scenarios(Case):
    def plays(self, scenario):
        self.holds(scenario.lines, "a line", scenario.name)
        for options in scenario.options():
            for rows, fault in scenario.scripts():
                self.is_answered(options, rows, fault)

    def is_answered(self, options, rows, fault):
        said = ran(program("autoraid"), "run", *options, text="".join(f"{line}\n" for line, _ in rows))
        shown = said.out.split("\n")
        for number, (line, wanted) in enumerate(rows, 1):
            met, shown = shown[: len(wanted)], shown[len(wanted) :]
            self.wants(met, wanted, f"line {number} with {' '.join(options)}: {line}")
        self.wants(shown, [""], f"what is printed after the answers with {' '.join(options)}")
        ended = said.status, said.error.split("\n")[0]
        self.wants(ended, (1 if fault else 0, fault), f"the end with {' '.join(options)}")


for path in sorted(glob.glob(os.path.join(ROOT, *FOLDER, "*.script"))):
    name = os.path.basename(path).removesuffix(".script")
    for place, one in enumerate(scenarios_of(name), 1):
        words = re.sub(r"\W+", "_", one.name.lower()).strip("_")
        setattr(Scenarios, f"test_{name}_{place:02}_{words[:60]}", lambda self, it=one: self.plays(it))
