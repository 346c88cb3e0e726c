"""The built program at its greatest sizes, with ample memory: nothing is refused for memory, and every answer is whole.

That a call may report that it is out of memory is in its contract; that it does so only then, no contract can say. So
scripts go where a bound of the program's own would show: the longest commands, a million puts, 999,000 changes of
units, twelve disks of 1,024 extents, a cache of all blocks. The wanted answers follow from the sizes, as the comments
say.
"""
import os
import tempfile
import xml.etree.ElementTree
from collections import Counter

from tests.harness import Case, connected, program, ran

# READs and WRITEs of 4,097, 65,534 and 65,535 sectors.
LONGEST_COMMANDS = [
    ("make 3 7 70000", "ok"),
    ("write 3 7 0 4097 A1", "good"),
    ("read 3 7 0 4097", "good 2097664xA1"),
    ("write16 3 7 2 65534 B2", "good"),
    ("read16 3 7 0 65534", "good 1024xA1 33552384xB2"),
    ("write 3 7 4465 65535 C3", "good"),
    ("read 3 7 4465 65535", "good 33553920xC3"),
    ("read 3 7 0 65535", "good 1024xA1 2285056xB2 31267840xC3"),
    ("read 3 7 4465 65535", "good 33553920xC3"),
    ("inquiry 3 7 1", "good 00"),
    ("tur 3 8", "check 05/25/00"),
    ("read 3 8 0 1", "check 05/25/00"),
]
TWELVE_DISKS = ["--disks", "12", "--extents", "1024"]
# What `groups` shows of twelve disks of 1,024 extents without a block.
ALL_FREE = [f"group {number} free 0" for number in range(3072)]


def map_of(rows, units):
    """The map of twelve healthy disks of 1,024 extents: a line for each fold; of each unit all and placed blocks."""
    heads = ["12 disks (columns) of 1024 extents (lines)", " " * 10 + "".join(f"{disk:>5}" for disk in range(12))]
    legend = ["M mirrored, P with parity; 0 to 9: how full, in ninths of its slots"]
    legend += ["-- in a free group, .. in no group, ! can't be used", "all disks are sound"]
    shown = sorted(units.items())
    shown = [f"unit {host} {lun}: {placed} of {blocks} blocks on the disks" for (host, lun), (blocks, placed) in shown]
    return [*heads, *rows, *legend, *shown]


class Largest(Case):
    def answers(self, options, lines):
        """The answers to a script."""
        done = ran(program("autoraid"), "run", *options, text="\n".join(lines) + "\n", seconds=110)
        return done.out.splitlines() + done.error.splitlines()

    def shows(self, found, wanted, what):
        """Looks that these lines are those that are wanted, and names the first that isn't."""
        differing = (at for at, (said, want) in enumerate(zip(found, wanted)) if said != want)
        if (at := next(differing, None)) is not None:
            self.wants(found[at], wanted[at], f"{what}, line {at}")
        self.wants(len(found), len(wanted), f"the number of lines of {what}")

    def longest_commands(self, cache):
        options = ["--geometry", "paper", "--extents", "16", "--cache", cache]
        found = self.answers(options, [line for line, _ in LONGEST_COMMANDS])
        for (line, wanted), said in zip(LONGEST_COMMANDS, found + ["nothing"] * len(LONGEST_COMMANDS)):
            self.wants(said, wanted, line)

    def test_longest_commands(self):
        self.longest_commands(0)

    def test_longest_commands_in_a_small_cache(self):
        self.longest_commands(4)

    def test_million_puts(self):
        """167 WRITEs of 6,000 blocks each are 1,002,000 puts; then units can still be created and grown."""
        lines = ["make 0 0 12000", *(f"write 0 0 0 12000 {number % 256:02X}" for number in range(167))]
        # Of 1,024 groups all but one count 6 blocks: 6,138, less 6,000 and 8.
        lines += ["make 1 0 8", "grow 1 0 16", "room", "read 0 0 0 12000"]
        wanted = ["ok", *["good"] * 167, "ok", "ok", "room 130", "good 6144000xA6"]
        self.shows(self.answers(["--extents", "1024"], lines), wanted, "a million puts")

    def test_largest_balance(self):
        """A twelfth disk of 1,024 extents: a new group takes four of them, its own and three that shift there."""
        found = self.answers(["--disks", "11", "--extents", "1024"], ["add", *["balance"] * 1030, "room", "health"])
        kinds = Counter(line.split()[0] for line in found)
        # 12,288 extents are 3,072 groups; all but one count 6 blocks.
        wanted = {"ok": 1, "formed": 256, "shifted": 768, "idle": 6, "room": 1, "whole": 1}
        self.wants(dict(kinds), wanted, "the steps of balancing")
        self.wants(found[-2:], ["room 18426", "whole"], "what is shown after balancing")

    def test_many_changes(self):
        """A unit is created, extended and deleted 333,000 times: nearly as many lines as a script may have."""
        found = Counter(self.answers([], ["make 2 3 4", "grow 2 3 6", "drop 2 3"] * 333_000))
        self.wants(dict(found), {"ok": 999_000}, "999,000 changes of a unit")

    def test_every_unit(self):
        """A unit at each of 32 addresses keeps its own bytes, written through a cache that holds a block of each."""
        units = [(host, lun) for host in range(4) for lun in range(8)]
        lines = [f"make {host} {lun} 2" for host, lun in units]
        lines += [f"write {host} {lun} 0 2 {16 * host + lun + 1:02X}" for host, lun in units]
        # All blocks wait in the cache.
        lines += [f"levels {host} {lun}" for host, lun in units]
        lines += [f"read {host} {lun} 0 2" for host, lun in units]
        wanted = ["ok"] * 32 + ["good"] * 32 + ["-"] * 32
        wanted += [f"good 1024x{16 * host + lun + 1:02X}" for host, lun in units]
        found = self.answers(["--extents", "16", "--cache", "32"], lines)
        for line, want, said in zip(lines, wanted, found + ["nothing"] * len(lines)):
            self.wants(said, want, line)

    def test_many_groups(self):
        """Of 3,072 groups of four mirrored slots: 5,000 blocks fill the first 1,250, block 17,000 is in the next."""
        lines = ["make 3 7 36000", "write 3 7 0 10000 5A", "write 3 7 34000 2 5B", "levels 3 7"]
        lines += ["home 3 7 4999", "home 3 7 17000", "home 3 7 17999", "home 3 7 18000", "groups"]
        wanted = ["ok", "good", "good", "M" * 5000 + "-" * 12000 + "M" + "-" * 999]
        wanted += ["home 1249 3", "home 1250 0", "home none", "outside"]
        wanted += [f"group {number} mirrored 4" for number in range(1250)] + ["group 1250 mirrored 1"]
        wanted += [f"group {number} free 0" for number in range(1251, 3072)]
        # The block that was written longest ago moves to the lowest free group.
        lines += ["demote", "home 3 7 0"]
        wanted += ["moved 3 7 0 to 1251 0", "home 1251 0"]
        self.shows(self.answers(TWELVE_DISKS, lines), wanted, "many groups")

    def test_many_runs(self):
        """A READ of 2,999 sectors, each other than the one before it, from an odd one on: 2,999 runs."""
        lines = ["make 3 7 3000", *(f"write 3 7 {lba} 1 {'A1' if lba % 2 else 'B2'}" for lba in range(3000))]
        found = self.answers(["--extents", "512"], [*lines, "read 3 7 1 2999"])
        runs = " ".join("512xA1" if lba % 2 else "512xB2" for lba in range(1, 3000))
        self.wants(found[-1:], [f"good {runs}"], "many runs")

    def test_largest_cache(self):
        """18,000 blocks wait in a cache that has room for them: none is written through to a group."""
        lines = ["make 3 7 36000", "write 3 7 0 36000 5A", "levels 3 7", "groups", "read 3 7 0 36000"]
        wanted = ["ok", "good", "-" * 18000, *ALL_FREE, "good 18432000x5A"]
        self.shows(self.answers([*TWELVE_DISKS, "--cache", "65536"], lines), wanted, "a cache of 65,536 blocks")

    def test_largest_picture(self):
        """1,000 extents, each of which looks other than the one before: map and drawing have a line for each."""
        # Extent E of all disks is in groups 3 E to 3 E + 2, whose 12 mirrored slots take the 12 blocks of a WRITE. Two
        # units take turns, and then one of them is deleted.
        units = {(host, lun): (1, 0) for host in range(4) for lun in range(8)}
        units |= {(0, 0): (6000, 6000), (1, 0): (6000, 6000)}
        lines = [f"make {host} {lun} {2 * blocks}" for (host, lun), (blocks, _) in units.items()]
        lines += [f"write {extent % 2} 0 {extent // 2 * 24} 24 5A" for extent in range(1000)]
        del units[1, 0]
        rows = [f"{extent:>4}      " + ("   --" if extent % 2 else "   9M") * 12 for extent in range(999)]
        rows += [" 999..1023" + "   --" * 12]
        wanted = ["ok"] * 32 + ["good"] * 1000 + ["ok", *map_of(rows, units)]
        with tempfile.TemporaryDirectory() as folder:
            file = os.path.join(folder, "picture.svg")
            found = self.answers([*TWELVE_DISKS, "--picture", file], [*lines, "drop 1 0", "picture"])
            self.shows(found, wanted, "the largest map")
            root = xml.etree.ElementTree.parse(file).getroot()
            self.wants(root.tag, "{http://www.w3.org/2000/svg}svg", "the root of the largest picture")

    def test_largest_service(self):
        """32 units, named on the command line, on eleven disks of 1,024 extents and a twelfth."""
        units = {(host, lun): (1, 0) for host in range(4) for lun in range(8)} | {(3, 7): (18000, 0)}
        words = [f"{host}:{lun}:{32000 if (host, lun) == (3, 7) else 2}" for host, lun in units]
        asked = ["grow 3 7 36000", "groups", "levels 3 7", "home 3 7 17999", "room", "picture"]
        asked += ["out 0", "replace 0", "drop 3 6"]
        # All groups but one count 6 blocks: 18,426, less 31 and 18,000.
        wanted = ["ok", *ALL_FREE, "-" * 18000, "home none", "room 395"]
        wanted += [*map_of(["   0..1023" + "   --" * 12], units), "ok", "ok", "ok"]
        server = self.serve("--disks", "11", "--extents", "1024", *words)
        # The service balances as well.
        found = server.answers_to("add\n" + "balance\n" * 1030).splitlines()
        self.wants((found[:1], found[-1:]), (["ok"], ["idle"]), "a twelfth disk")
        self.shows(server.answers_to("\n".join(asked) + "\n").splitlines(), wanted, "what an operator was answered")
        self.wants(self.change_units(server, 33_300), {"ok\n": 99_900}, "99,900 changes of a unit that is served")
        self.stops(server, [0, 0, 0, 0])

    def change_units(self, server, times):
        """How an operator is answered who changes a unit this many times, a thousand lines at a time."""
        said = Counter()
        with connected(server.operator_port) as link, link.makefile("r", encoding="ascii", newline="\n") as answered:
            for _ in range(times // 333):
                link.sendall(b"make 3 6 4\ngrow 3 6 6\ndrop 3 6\n" * 333)
                said.update(answered.readline() for _ in range(999))
        return dict(said)
