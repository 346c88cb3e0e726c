"""What `run --picture` and the word `picture` draw: each extent once, health, units and their colours; files that are
full.

Text maps of small arrays are scenarios, in tests/scenarios/pictures.script.
"""
import os
import re
import resource
import tempfile

from tests.harness import Case, program, ran

# A group of each kind, on five disks of four extents of which one is out. Six blocks are written to groups 0 and 1, and
# move to group 2, with parity; then three are written to group 0, one of unit 0 0 and two of unit 2 1.
ONE_OF_EACH = ["make 0 0 14", "make 2 1 4", "write 0 0 0 12 AA", *["demote"] * 6]
ONE_OF_EACH += ["write 0 0 12 2 BB", "write 2 1 0 4 CC", "add", "out 3"]
# What stands in its drawing, and how often. The fifth disk's extents are in no group; each style is in the legend once
# more.
PARTS = {
    "<rect class='mirrored' ": 4 + 1,
    "<rect class='parity' ": 4 + 1,
    "<rect class='free' ": 8 + 1,
    "<rect class='loose' ": 4 + 1,
    "<rect class='missing' ": 4 + 1,
    "<rect x='0' width='1' height='1' fill='#0072B2'/>": 4,
    "<rect x='1' width='2' height='1' fill='#99D8C7'/></svg>": 4,
    "<rect x='0' width='6' height='1' fill='#0072B2'/></svg>": 4,
    ">0: 3 of 4</text>": 4,
    ">2: 6 of 6</text>": 4,
    ">disk 4</text>": 1,
    ">out</text>": 1,
    ">Disk 3 is out.</text>": 1,
    ">unit 0 0: 7 of 7</text>": 1,
    ">unit 2 1: 2 of 2</text>": 1,
    # (a unit is listed in the colour of its blocks)
    " fill='#99D8C7'/>\n<text x='580' y='306'>unit 2 1: 2 of 2</text>": 1,
}


class Pictures(Case):
    def drawn(self, lines, *options):
        """The SVG of an array that has met these lines."""
        with tempfile.TemporaryDirectory() as room:
            file = os.path.join(room, "picture.svg")
            said = ran(program("autoraid"), "run", *options, "--picture", file, text="\n".join(lines) + "\n")
            self.wants((said.status, said.error), (0, ""), "the run")
            with open(file, encoding="utf-8") as picture:
                return picture.read()

    def has(self, text, parts):
        for part, count in parts.items():
            self.wants(text.count(part), count, f"how often {part!r} stands there")

    def test_each_extent_once(self):
        text = self.drawn(ONE_OF_EACH)
        self.holds(text.startswith("<svg xmlns='http://www.w3.org/2000/svg' "), "the begin of an SVG", text[:60])
        self.holds(text.endswith("</svg>\n"), "the end of an SVG", text[-60:])
        self.has(text, PARTS)

    def test_whole(self):
        self.has(self.drawn([]), {">All disks are sound.</text>": 1, "class='down'": 0})

    def test_rebuilding(self):
        text = self.drawn(["out 2", "replace 2", *["rebuild"] * 3])
        parts = {">Disk 2 is new: 3 of its 4 extents are rebuilt.</text>": 1, "class='down'": 1, ">3 rebuilt</text>": 1}
        self.has(text, parts)

    def test_broken(self):
        lost = ">Two disks were lost at one moment, and the data with them.</text>"
        self.has(self.drawn(["make 0 0 2", "write 0 0 0 2 AA", "out 1", "out 2"]), {lost: 1, "class='down'": 0})

    def test_many_extents(self):
        """Every eighth has its number, none has words, and each stands below the one before."""
        text = self.drawn(["make 0 0 6", "write 0 0 0 6 AA"], "--extents", "20")
        parts = {"<text class='number' ": 3, ">0</text>": 1, ">8</text>": 1, ">16</text>": 1, ">0: 3 of 4</text>": 0}
        parts |= {f"y='{y}' width='80' height='12'": 4 for y in (124, 138, 390)}
        self.has(text, parts)

    def test_most_extents(self):
        """A picture is as tall as its last extent asks: 124 + 3 * 1,024 and an edge of 24."""
        text = self.drawn([], "--disks", "12", "--extents", "1024")
        self.has(text, {" height='3220' viewBox='0 0 1452 3220'>": 1, "<text class='number' ": 8})

    def test_each_unit_has_a_line_and_a_colour(self):
        text = self.drawn([f"make {host} {lun} 2" for host in range(4) for lun in range(8)], "--extents", "16")
        self.wants(text.count(">unit "), 32, "lines of units")
        colours = re.findall(r" height='15' fill='(.{7})", text)
        counts = [text.count(colour) for colour in colours]
        self.wants(counts, [1] * 32, "how often the colour of each unit stands there")

    def test_map_of_the_largest_array(self):
        """The rows that are rebuilt are one line, and so are the others; four digits stand in their columns."""
        lines = ["out 11", "replace 11", *["rebuild"] * 1000, "picture"]
        said = ran(program("autoraid"), "run", "--disks", "12", "--extents", "1024", text="\n".join(lines) + "\n")
        wanted = ["12 disks (columns) of 1024 extents (lines)", " " * 10 + "".join(f"{disk:>5}" for disk in range(12))]
        wanted += [" " * 65 + "  new", "   0..999 " + "   --" * 12, "1000..1023" + "   --" * 11 + "  !--"]
        wanted += ["M mirrored, P with parity; 0 to 9: how full, in ninths of its slots"]
        wanted += ["-- in a free group, .. in no group, ! can't be used"]
        wanted += ["disk 11 is new: 1000 of its 1024 extents are rebuilt"]
        self.wants(said.out.splitlines()[1002:], wanted, "the map")


class FullFiles(Case):
    """A file that takes no more: each byte that isn't taken is reported."""

    def run_with(self, most, words, **how):
        """Runs a program whose files may have this many bytes. (A signal that would end it is ignored.)"""
        how["limits"] = {resource.RLIMIT_FSIZE: most}
        return ran(program("autoraid"), "run", *words, restore_signals=False, **how)

    def sizes(self, whole):
        return [0, 1, whole // 2, whole - 1]

    def test_full_file_of_a_picture(self):
        script = "\n".join(ONE_OF_EACH) + "\n"
        with tempfile.TemporaryDirectory() as room:
            file = os.path.join(room, "picture.svg")
            ran(program("autoraid"), "run", "--picture", file, text=script)
            whole = os.path.getsize(file)
            self.holds(whole > 2000, "a picture", whole)
            for most in self.sizes(whole):
                said = self.run_with(most, ["--picture", file], text=script)
                wanted = (1, "the picture can't be written\n")
                self.wants((said.status, said.error), wanted, f"a picture in {most} bytes")
            said = self.run_with(whole, ["--picture", file], text=script)
            self.wants((said.status, said.error), (0, ""), f"a picture in {whole} bytes")

    def test_full_file_of_a_map(self):
        whole = len(ran(program("autoraid"), "run", text="picture\n").out)
        self.holds(whole > 200, "a map", whole)
        with tempfile.TemporaryDirectory() as room:
            for most in [*self.sizes(whole), whole]:
                with open(os.path.join(room, "map"), "wb") as file:
                    said = self.run_with(most, [], text="picture\n", stdout=file)
                wanted = (0, "") if most == whole else (1, "line 1: write fault\n")
                self.wants((said.status, said.error), wanted, f"a map in {most} bytes")
