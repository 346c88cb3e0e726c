"""The command lines of command-lines.txt, a case each: status, standard output and standard error.

A line is: words | standard input | status | standard output | standard error. Ports in it stand for free ones.
"""
import os
import re
import resource
import shlex
import tempfile
import xml.etree.ElementTree

from tests.harness import Case, free_port, program, ran, shown, text_of

# A run that is given this file has to write a picture to it.
PICTURE = "picture.svg"
PORTS = "7117", "7118", "7119"


def wanted_text(field):
    """The text that a field stands for: '-' is nothing, and ';' ends a line."""
    return "" if field == "-" else field.replace(";", "\n")


def matches(text, field):
    """Whether a text is the one that is wanted: '..' is any, and 'text ..' is only the beginning."""
    if field == "..":
        return True
    if field.endswith(" .."):
        return text.startswith(field[: -len(" ..")])
    return text.rstrip("\n") == wanted_text(field)


def root_of(file):
    """The root of a well-formed XML file, or what is wrong with it."""
    try:
        return xml.etree.ElementTree.parse(file).getroot().tag
    except (OSError, xml.etree.ElementTree.ParseError) as error:
        return str(error)


class CommandLines(Case):
    def runs(self, line):
        words, given, status, out, error = (field.strip() for field in line.split(" | "))
        for port in PORTS:
            words = words.replace(port, str(free_port()))
        words, how = shlex.split(words), {}
        if words[0].startswith("@"):
            how["limits"] = {resource.RLIMIT_AS: 1024 * int(words.pop(0)[1:])}
        if words[-1].startswith(">"):
            how["stdout"] = open(words.pop()[1:], "wb")
            self.addCleanup(how["stdout"].close)
        with tempfile.TemporaryDirectory() as room:
            said = ran(program(words[0]), *words[1:], text=wanted_text(given) + "\n" * (given != "-"), cwd=room, **how)
            picture = root_of(os.path.join(room, PICTURE))
        self.wants(said.status, int(status), f"the status, with {shown(said.error)} on standard error")
        self.holds(matches(said.out or "", out), wanted_text(out), said.out)
        self.holds(matches(said.error, error), wanted_text(error), said.error)
        if any(word.endswith(PICTURE) for word in words):
            self.wants(picture, "{http://www.w3.org/2000/svg}svg", "the root of the picture")


class Documents(Case):
    def test_examples_full_array(self):
        """A script that fills an array is answered by examples/full_array.answers."""
        said = ran(program("autoraid"), "run", "--extents", "3", text=text_of("examples", "full_array.script"))
        self.wants((said.status, said.out), (0, text_of("examples", "full_array.answers")), "the answers")

    def test_documents_picture(self):
        """The array of examples/life.script is drawn in docs/array.svg, and its map is shown in docs/SCRIPT.md."""
        with tempfile.TemporaryDirectory() as room:
            script = text_of("examples", "life.script")
            said = ran(program("autoraid"), "run", "--picture", PICTURE, text=script, cwd=room)
            drawn = text_of(room, PICTURE)
        self.wants(drawn, text_of("docs", "array.svg"), "the picture")
        shown_map = said.out[said.out.index("5 disks (columns)") :]
        self.holds(shown_map in text_of("docs", "SCRIPT.md"), "this map in docs/SCRIPT.md", shown_map)


def name_of(line, number):
    """The name of a line's case, such as test_042_autoraid_run_disks_3."""
    words = re.sub(r"\W+", "_", line.partition(" | ")[0].strip().lower()).strip("_")
    return f"test_{number:03}_{words[:80]}"


for at, row in enumerate(text_of("tests", "command-lines.txt").splitlines(), 1):
    if row.strip() and not row.startswith("#"):
        setattr(CommandLines, name_of(row, at), lambda self, line=row: self.runs(line))
