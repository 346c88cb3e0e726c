"""The lines of scripts: what is said of one that is faulty, and `run --echo`.

The second line of a fault names the word, its column, and what docs/SCRIPT.md wants there.
"""
import os
import tempfile

from tests.harness import Case, Ended, program, ran

# Lines, the fault, and what its second line begins with.
FAULTY = [
    ("raed 0 0 0 1", "unknown word", "column 1: 'raed' is none of make grow drop "),
    ("Make 0 0 1", "unknown word", "column 1: 'Make' is none of "),
    ("help", "unknown word", "column 1: 'help' is none of "),
    ("read 0 0 0", "bad argument", "column 12: COUNT is missing, a number from 0 to 65535: read H L LBA COUNT"),
    ("read", "bad argument", "column 6: H is missing, a number from 0 to 3: read H L LBA COUNT"),
    ("read 4 0 0 1", "bad argument", "column 6: '4' is no H, a number from 0 to 3: read H L LBA COUNT"),
    ("read 0 256 0 1", "bad argument", "column 8: '256' is no L, a number from 0 to 255: "),
    ("read 0 0 4294967296 1", "bad argument", "column 10: '4294967296' is no LBA, a number from 0 to 4294967295: "),
    ("read16 0 0 12345678901 1", "bad argument", "column 12: '12345678901' is no LBA, a number from 0 to 9999999999: "),
    ("read 0 0 0 65536", "bad argument", "column 12: '65536' is no COUNT, a number from 0 to 65535: "),
    ("read 0 0 0 x", "bad argument", "column 12: 'x' is no COUNT, a number from 0 to 65535: "),
    ("read 0 0 0 1 2", "bad argument", "column 14: '2' is a word too many: read H L LBA COUNT"),
    ("write 0 0 0 1 A", "bad argument", "column 15: 'A' is no BYTE, two hexadecimal digits: write H L LBA "),
    ("write 0 0 0 1", "bad argument", "column 15: BYTE is missing, two hexadecimal digits: "),
    ("write16 0 0 0 1 AA now", "bad argument", "column 20: 'now' is no fua, "),
    ("write 0 0 0 1 AA fua 1", "bad argument", "column 22: '1' is a word too many: "),
    ("cdb 0 0 123", "bad argument", "column 9: '123' is no HEX, 1 to 16 bytes in hexadecimal digits: "),
    ("cdb 0 0 00 4", "bad argument", "column 14: BYTE is missing, two hexadecimal digits: cdb H L HEX [COUNT BYTE]"),
    ("unmap 0 0 0 4294967296", "bad argument", "column 13: '4294967296' is no COUNT, a number from 0 to 4294967295: "),
    ("make 0 0 4294967296", "bad argument", "column 10: '4294967296' is no SIZE, sectors from 0 to 4294967295, or "),
    ("make 0 0 2048G", "bad argument", "column 10: '2048G' is no SIZE, sectors from 0 to 4294967295, or a size as 32M"),
    ("grow 0 0 32m", "bad argument", "column 10: '32m' is no SIZE, sectors from 0 to 4294967295, or a size as 32M: "),
    ("grow 0 0 K", "bad argument", "column 10: 'K' is no SIZE, sectors from 0 to 4294967295, or a size as 32M: grow "),
    ("make 0 0", "bad argument", "column 10: SIZE is missing, sectors from 0 to 4294967295, or a size as 32M: make "),
    ("home 0 0 1K", "bad argument", "column 10: '1K' is no RB, a number from 0 to 4294967295: home H L RB"),
    ("home 0 0 4294967296", "bad argument", "column 10: '4294967296' is no RB, a number from 0 to 4294967295: "),
    ("inquiry 0 0 65536", "bad argument", "column 13: '65536' is no LEN, a number from 0 to 65535: "),
    ("block 0 65536 0", "bad argument", "column 9: '65536' is no E, a number from 0 to 65535: block D E R"),
    ("block 0 0 65536", "bad argument", "column 11: '65536' is no R, a number from 0 to 65535: "),
    ("out 256", "bad argument", "column 5: '256' is no D, a number from 0 to 255: out D"),
    ("out 0 force", "bad argument", "column 7: 'force' is a word too many: out D"),
    ("flush now", "bad argument", "column 7: 'now' is a word too many: flush"),
    ("tur  0 0", "bad argument", "column 5: a space too many"),
    (" tur 0 0", "bad argument", "column 1: a space too many"),
    ("tur 0 0 ", "bad argument", "column 8: a space too many"),
    ("bogus  word", "bad argument", "column 7: a space too many"),
    ("tur 0 0\r", "bad character", "column 8: a carriage return"),
    ("tur\t0 0", "bad character", "column 4: a TAB"),
    ("# \x7f", "bad character", "column 3: byte 7F"),
]
# Valid lines, whose mutations are each refused with an explanation.
VALID = [
    *["make 0 0 8", "make 0 0 8K", "grow 0 0 9", "drop 0 0", "tur 3 7", "inquiry 0 0 36", "capacity 0 0"],
    *["read 0 0 0 1", "read16 0 0 0 1", "write 0 0 0 1 AA", "write 0 0 0 1 AA fua", "write16 0 0 0 1 aa"],
    *["unmap 0 0 0 1", "cdb 0 0 00", "cdb 0 0 2A00 4 AA", "add", "out 0", "replace 0", "rebuild", "flush"],
    *["demote", "clean", "balance", "levels 0 0", "home 0 0 0", "groups", "room", "health", "block 0 0 0", "picture"],
]


def script(*words, **how):
    return ran(program("autoraid"), "run", *words, **how)


class Faults(Case):
    def test_second_lines(self):
        """Beside each fault a second line says what is wrong; the answers before it are there."""
        for line, fault, second in FAULTY:
            with self.subTest(line):
                said = script(text=f"tur 0 0\n{line}\ntur 0 0\n")
                self.wants((said.status, said.out), (1, "check 05/25/00\n"), "the status, and the output")
                first, rest = said.error.split("\n", 1)
                self.wants(first, f"line 2: {fault}", "the first line")
                self.holds(rest.startswith(second) and rest.count("\n") == 1, second, rest)

    def test_far_into_a_script(self):
        """The line is the one of its number also where much was read before it, and it is the longest."""
        for line, second in ("x" * 4096, "column 1: 'xxx"), ("tur 0 0" + " " * 4089, "column 9: a space too many"):
            for before in 1, 800, 2047, 2048, 2049, 5000:
                said = script(text="#abc\n" * before + f"{line}\ntur 0 0\n")
                first, rest = said.error.split("\n", 1)
                self.holds(first.startswith(f"line {before + 1}: "), f"line {before + 1}", first)
                self.holds(rest.startswith(second), second, rest[:200])

    def test_every_refused_line_is_explained(self):
        """The table of forms goes with the parser: what one refuses, the other explains, and nothing else."""
        for line in VALID:
            self.wants(script(text=f"{line}\n").error, "", line)
            words = line.split()
            wrong = [words[:-1], [*words, "1"]] if len(words) > 1 else [[*words, "1"]]
            wrong += [[*words[:at], "x", *words[at + 1 :]] for at in range(len(words))]
            for words in wrong:
                changed = " ".join(words)
                if changed in VALID or changed in ("cdb 0 0 2A00 4", "write 0 0 0 1 AA"):
                    continue
                error = script(text=f"{changed}\n").error
                self.wants(error.count("\n"), 2, f"the lines for {changed!r}, {error!r}")

    def test_faults_that_name_no_word(self):
        said = script(text="x" * 4097 + "\n")
        self.wants(said, Ended(1, "", "line 1: line too long\n"), "a line too long")
        said = script(text="cdb 0 0 2A00 4 AA\ncdb 0 0 2A00 4\n")
        self.holds("BYTE is missing" in said.error, "a command's data without their byte", said.error)

    def test_sizes(self):
        """K, M and G count KiB, MiB and GiB, of two, 2,048 and 2,097,152 sectors of 512 bytes."""
        text = "make 0 0 8K\ncapacity 0 0\ngrow 0 0 1M\ncapacity 0 0\ncapacity 0 0\nmake 0 1 1G\nmake 0 2 0K\n"
        said = script("--disks", "12", "--extents", "300", text=text)
        wanted = ["ok", "good 00 00 00 0F 00 00 02 00", "ok", "check 06/2A/09", "good 00 00 07 FF 00 00 02 00"]
        wanted += ["refused M2 Size"] * 2
        self.wants(said, Ended(0, "\n".join(wanted) + "\n", ""), "units by their sizes")

    def test_with_a_picture(self):
        with tempfile.TemporaryDirectory() as room:
            said = script("--picture", os.path.join(room, "array.svg"), text="out x\n")
        second = "column 5: 'x' is no D, a number from 0 to 255: out D"
        self.wants(said.error, f"line 1: bad argument\n{second}\n", "standard error")

    def test_a_client(self):
        """A host's client says the same of its lines."""
        server = self.serve("0:0:8")
        said = server.client(0, "tur 0 0\nread 0 0 0 x\n")
        error = "line 2: bad argument\ncolumn 12: 'x' is no COUNT, a number from 0 to 65535: read H L LBA COUNT\n"
        self.wants(said, Ended(1, "good\n", error), "a client with a faulty line")
        self.stops(server)


class Echo(Case):
    def test_echo(self):
        """Each line stands before its answer, also one without any."""
        text = "# a unit\nmake 0 0 4\n\nread 0 0 0 2\n"
        said = script("--echo", text=text)
        out = "# a unit\nmake 0 0 4\nok\n\nread 0 0 0 2\ngood 1024x00\n"
        self.wants(said, Ended(0, out, ""), "a script that is echoed")

    def test_fault(self):
        said = script("--echo", text="room\nout x\nroom\n")
        error = "line 2: bad argument\ncolumn 5: 'x' is no D, a number from 0 to 255: out D\n"
        self.wants(said, Ended(1, "room\nroom 18\nout x\n", error), "a fault of a script that is echoed")

    def test_answers_are_those_of_a_plain_run(self):
        with open("examples/life.script", encoding="ascii") as file:
            text = file.read()
        plain, echoed = script("--disks", "5", text=text), script("--disks", "5", "--echo", text=text)
        self.wants((echoed.status, echoed.error), (plain.status, plain.error), "the ends")
        lines, answers = text.splitlines(), []
        for line in echoed.out.splitlines():
            if lines and line == lines[0]:
                del lines[0]
            else:
                answers.append(line)
        self.wants((lines, answers), ([], plain.out.splitlines()), "the lines that weren't echoed, and the answers")
