"""Operators of a served array: words, garbage, what is counted, how many there may be."""
import random
import time

from tests.harness import Case, Reply, answered, program, ran, rest_of

# The operator's words, as `help` shows them.
WORDS = """make H L SIZE
grow H L SIZE
drop H L
add
out D
out D force
replace D
fail D N
fail D off
end H
end H S
flush
demote
clean
balance
rebuild
levels H L
home H L RB
groups
room
health
picture
usage
units
disks
sessions
counts
version
help
stop""".split("\n")

# What is asked, and answered.
SAID = [
    ("health", "whole"),
    ("make 1 0 8", "ok"),
    ("out 1", "ok"),
    ("health", "out 1"),
    ("replace 1", "ok"),
    ("fail 9 0", "refused E4 NoSuchDisk"),
    ("fail 2 off", "ok"),
    ("bogus", "fault: unknown word"),
    ("whatever", "fault: unknown word"),
    ("tur 0 0", "fault: not an operator's word"),
    ("block 0 0 0", "fault: not an operator's word"),
    ("health 1", "fault: bad argument"),
    ("make 1 0 8", "refused M1 Exists"),
    ("out", "fault: bad argument"),
    ("out x", "fault: bad argument"),
    ("read 0 0 0 1", "fault: not an operator's word"),
    ("read x", "fault: not an operator's word"),
    ("write 0 0 0 1 AA", "fault: not an operator's word"),
    ("cdb 0 0 00", "fault: not an operator's word"),
    ("unmap 0 0 0 1", "fault: not an operator's word"),
    ("out 200", "refused E4 NoSuchDisk"),
    ("fail 200 1", "refused E4 NoSuchDisk"),
    ("fail 0 off", "ok"),
]

# Lines that are faulty: words that are none, arguments that are, and words of hosts with arguments or without.
FAULTY = {
    "unknown word": ["x", "Health", "session"],
    "bad argument": ["make 0 0", "health ", " health", "make  0 0 4", "stop now", "help 1", "counts 0", "sessions 0"],
    "not an operator's word": ["read", "write", "cdb", "inquiry", "capacity", "read16", "write16", "tur", "block"],
}
FAULTY["not an operator's word"] += ["unmap"]
FAULTY["bad argument"] += ["fail", "fail 0", "fail 0 x", "fail 256 1", "fail 0 off off", "fail 0 12345678901"]
FAULTY["bad argument"] += ["fail 0 1 1 1 1 1 1 1 1", "usage 0", "units 0 0", "disks 0", "version 1"]
FAULTY["bad argument"] += ["end", "end 4", "end x", "end 0 x", "end 0 1 2", "end -1"]

# Units and views of an array of four disks of four extents, in order, by the tables of scripts' lines and answers.
UNITS = [
    ("room", "room 18"),
    ("make 0 0 4", "ok"),
    ("room", "room 16"),
    # (in sectors, of which a block has two)
    ("usage", "room 32 sectors\nmirrored 0 sectors\nparity 0 sectors\nunwritten 4 sectors\nspares 0"),
    ("units", "unit 0 0 sectors 4 blocks 2 written 0 cached 0"),
    ("disks", "\n".join(f"disk {disk} extents 0 of 4 accesses 0 errors 0 in use" for disk in range(4))),
    ("make 0 0 4", "refused M1 Exists"),
    ("make 0 8 4", "refused M7 BadLun"),
    ("make 1 0 0", "refused M2 Size"),
    ("make 1 0 4096", "refused M3 NoRoom 16"),
    ("grow 0 0 8", "ok"),
    ("grow 0 0 8", "refused M2 Size"),
    ("levels 0 0", "----"),
    ("levels 3 7", "refused M5 Absent"),
    ("home 0 0 0", "home none"),
    ("home 0 0 4", "outside"),
    ("groups", "group 0 free 0\ngroup 1 free 0\ngroup 2 free 0\ngroup 3 free 0"),
    ("drop 0 0", "ok"),
    ("drop 0 0", "refused M5 Absent"),
    ("flush", "idle"),
    ("demote", "idle"),
    ("clean", "idle"),
    ("balance", "idle"),
    ("rebuild", "idle"),
    ("out 4", "refused E4 NoSuchDisk"),
    ("replace 1", "refused E3 NotOut"),
    ("replace 4", "refused E4 NoSuchDisk"),
    ("fail 4 off", "refused E4 NoSuchDisk"),
]
PICTURE = """4 disks (columns) of 4 extents (lines)
              0    1    2    3
   0..3      --   --   --   --
M mirrored, P with parity; 0 to 9: how full, in ninths of its slots
-- in a free group, .. in no group, ! can't be used
all disks are sound"""

# What ends the connection, and its answer; a line after it is not executed.
NO_TEXT = [
    ("a tab", b"\t\nout 2\n", "fault: bad character\n"),
    ("a delete in a comment", b"#\x7F\nout 2\n", "fault: bad character\n"),
    ("a letter that isn't ASCII", b"h\xC3\xA4\nout 2\n", "fault: bad character\n"),
    ("a zero", b"\0\nout 2\n", "fault: bad character\n"),
    ("a comment of 4,097", b"#" * 4097 + b"\nout 2\n", "fault: line too long\n"),
    # (a bad character is reported among the first 4,096 bytes alone)
    ("a carriage return at 4,096", b"#" * 4095 + b"\r\nout 2\n", "fault: bad character\n"),
    ("a carriage return after them", b"#" * 4096 + b"\r\nout 2\n", "fault: line too long\n"),
    ("100,000 carriage returns", b"\r" * 100_000 + b"\nout 2\n", "fault: bad character\n"),
    ("a control character", b"heal\x07th\nout 2\n", "fault: bad character\n"),
    ("a carriage return", b"health\r\nout 0\n", "fault: bad character\n"),
    ("a line of 4,097", b"x" * 4097 + b"\nout 0\n", "fault: line too long\n"),
    ("a line of 5,000", b"x" * 5000 + b"\nout 2\n", "fault: line too long\n"),
    ("a line of 100,000", b"x" * 100_000 + b"\nout 0\n", "fault: line too long\n"),
    # What a browser sends for a web page that posts orders: none of them is executed.
    ("a web page", b"POST / HTTP/1.1\r\nHost: 127.0.0.1:7118\r\n\r\nout 0\nout 1\n", "fault: bad character\n"),
]


# A second disk that is taken out.
LAST_COPY = [
    ("out 1", "ok"),
    ("out 1", "ok"),
    ("out 2", "refused: disk 2 has the only copy"),
    ("out 2 yes", "fault: bad argument"),
    ("out 5 force", "refused E4 NoSuchDisk"),
    ("health", "out 1"),
    ("out 2 force", "ok"),
    ("health", "broken"),
    ("out 0", "ok"),
]

# Last lines without their LF.
CUT = ["out 1", "health\nout 1", "h", "# nothing", "stop", "\r", "x" * 5000]


class Operators(Case):
    def test_words_of_an_operator(self):
        server = self.serve("--disks", "5", "--extents", "16", "0:0:24")
        operator = self.kept(server.operator())
        for line, wanted in SAID:
            self.wants(operator.answer_to(f"{line}\n".encode()), f"{wanted}\n", line)
        self.wants(operator.asks("help"), WORDS, "help")
        self.stops(server, [0, 0, 0, 0])

    def test_the_only_copy(self):
        """The second disk is not taken out, while the first is out or not rebuilt, unless by `force`."""
        server = self.serve("--disks", "5", "0:0:24")
        for line, wanted in LAST_COPY:
            self.wants(server.answers_to(f"{line}\n"), f"{wanted}\n", line)
        self.stops_failed(server, [0, 0, 0, 0])

    def test_faulty_lines(self):
        """Each is answered by its fault, and the conversation goes on."""
        server = self.serve()
        operator = self.kept(server.operator())
        for fault, lines in FAULTY.items():
            for line in lines:
                self.wants(operator.answer_to(f"{line}\n".encode()), f"fault: {fault}\n", repr(line))
        self.wants(operator.asks("health"), ["whole"], "health after them")
        self.stops(server, [0, 0, 0, 0])

    def test_units_and_views(self):
        server = self.serve()
        operator = self.kept(server.operator())
        for line, wanted in UNITS:
            self.wants(operator.asks(line), wanted.split("\n"), line)
        self.wants(operator.asks("picture"), PICTURE.split("\n"), "picture")
        self.stops(server, [0, 0, 0, 0])

    def test_longest_lines(self):
        """Lines of 4,096 bytes are read."""
        server = self.serve()
        for sent, wanted in (
            (b"#" * 4096 + b"\nhealth\n", "whole\n"),
            (b"x" * 4096 + b"\nhealth\n", "fault: unknown word\nwhole\n"),
            (b"", ""),
        ):
            self.wants(answered(server.operator_port, sent).decode(), wanted, f"what {sent[-20:]} is answered")
        self.stops(server, [0, 0, 0, 0])

    def test_no_answer_to_comments(self):
        server = self.serve("0:0:8")
        self.wants(server.answers_to("sessions\n# nothing\n\nroom\n"), "room 14\n", "comments")
        self.stops(server, [0, 0, 0, 0])

    def test_a_cut_line_is_not_executed(self):
        """The end of the connection may cut `out 11` to `out 1`."""
        server = self.serve("--disks", "12")
        for sent in CUT:
            wanted = "whole\n" * sent.startswith("health\n") + "fault: cut line\n"
            self.wants(server.answers_to(sent), wanted, f"{sent!r} without its LF")
            self.wants(server.answers_to("health\n"), "whole\n", f"the health after {sent!r}")
        self.stops(server, [0, 0, 0, 0])

    def test_no_text(self):
        server = self.serve()
        for name, sent, wanted in NO_TEXT:
            with self.subTest(name):
                self.wants(answered(server.operator_port, sent).decode(), wanted, "an operator")
                self.wants(server.answers_to("health\n"), "whole\n", "the health after it")
        self.stops(server, [0, 0, 0, 0])

    def test_garbage_on_other_connections(self):
        server = self.serve("0:0:8")
        one, garbage, half = (self.kept(server.operator()) for _ in range(3))
        garbage.link.sendall(bytes(random.Random(5).randrange(128, 256) for _ in range(100_000)))
        half.link.sendall(b"hea")
        garbage.close()
        half.close()
        self.wants(one.asks("health"), ["whole"], "health after garbage")
        self.stops(server, [0, 0, 0, 0])

    def test_what_is_counted(self):
        """What is counted of two hosts, and of each session."""
        server = self.serve("0:0:24", "1:0:8")
        host = server.log_in(0)
        self.wants(host.writes(0, b"w" * 1024), Reply(1, 0, b"", b""), "a WRITE of two sectors")
        self.wants(host.reads(0, 3), Reply(2, 0, b"", b"w" * 1024 + bytes(512)), "a READ of three sectors")
        said = f"host 0 frames 2 read 1536 written 1024 {host.place()}\n"
        self.wants(server.answers_to("sessions\n"), said, "sessions")
        wanted = ["host 0 commands 2 read 1536 written 1024"]
        wanted += [f"host {host} commands 0 read 0 written 0" for host in (1, 2, 3)]
        self.wants(server.answers_to("counts\n").splitlines()[:4], wanted, "counts")
        self.wants(server.answers_to("health\n"), "whole\n", "health after looks")
        host.close()
        self.wants(server.wait_for_none(), "", "sessions once the host has left")
        again = server.log_in_again(0)
        said = f"host 0 frames 0 read 0 written 0 {again.place()}\n"
        self.wants(server.answers_to("sessions\n"), said, "a second session of a host")
        again.close()
        self.stops(server, [2, 0, 0, 0])

    def test_a_counted_failure(self):
        """`fail D N`: disk D passes N accesses, and fails at the next. A WRITE of a mirrored block makes two."""
        server = self.serve("0:0:2")
        host = self.kept(server.log_in(0))

        def health_after_a_write():
            host.writes(0, b"w" * 1024)
            return server.answers_to("health\n")

        health_after_a_write()
        for disk in range(4):
            server.answers_to(f"fail {disk} 0\n")
            if health_after_a_write() == f"out {disk}\n":
                break
            server.answers_to(f"fail {disk} off\n")
        server.answers_to(f"replace {disk}\n")
        operator = self.kept(server.operator())
        self.wants(operator.waits("health", ["whole"]), ["whole"], "health once the disk is replaced")
        server.answers_to(f"fail {disk} 3\n")
        said = [health_after_a_write() for _ in range(4)]
        self.wants(said, ["whole\n"] * 3 + [f"out {disk}\n"], "a disk that passes three accesses")

    def test_what_the_array_has(self):
        """Units, blocks in sectors, and the version as `--version` prints it."""
        server = self.serve("0:0:24", "1:3:5")
        host, operator = self.kept(server.log_in(0)), self.kept(server.operator())
        self.wants(host.writes(0, b"w" * 4096).status, 0, "a WRITE of four blocks")
        said = dict(line.removesuffix(" sectors").split() for line in operator.asks("usage"))
        placed = int(said.pop("mirrored")) + int(said.pop("parity"))
        # (the units have 15 of 18 blocks of two sectors)
        wanted = {"room": "6", "unwritten": "22", "spares": "0"}
        self.wants((said, placed), (wanted, 8), "how the sectors are used")
        units = ["unit 0 0 sectors 24 blocks 12 written 4 cached 0", "unit 1 3 sectors 5 blocks 3 written 0 cached 0"]
        self.wants(operator.asks("units"), units, "the units")
        self.wants(operator.asks("version"), [ran(program("autoraid"), "--version").out.strip()], "the version")

    def test_what_disks_have_done(self):
        """A disk that fails has one error; a new one begins at 0, and is written to by the rebuild."""
        server = self.serve("0:0:24", audit="off")
        host, operator = self.kept(server.log_in(0)), self.kept(server.operator())

        def disks():
            found = [line.split(maxsplit=10) for line in operator.asks("disks")]
            self.wants([words[:2] for words in found], [["disk", str(disk)] for disk in range(4)], "the disks")
            return [(int(words[3]), int(words[7]), int(words[9]), words[10]) for words in found]

        self.wants(disks(), [(0, 0, 0, "in use")] * 4, "disks that hold nothing")
        self.wants(host.writes(0, b"w" * 12288).status, 0, "a WRITE of twelve blocks")
        said = disks()
        # (a mirrored write makes two accesses)
        self.holds(sum(accesses for _, accesses, _, _ in said) >= 24, "24 accesses", said)
        self.wants({(errors, state) for _, _, errors, state in said}, {(0, "in use")}, "errors, and states")
        self.wants(operator.asks("out 1"), ["ok"], "a disk that is taken out")
        self.wants(disks()[1][2:], (0, "out"), "it")
        self.wants(operator.asks("replace 1"), ["ok"], "a new disk")
        self.wants(operator.waits("health", ["whole"]), ["whole"], "the health once it is rebuilt")
        used, accesses, errors, state = disks()[1]
        # (an extent has two rows)
        self.wants((accesses >= 2 * used > 0, errors, state), (True, 0, "in use"), "the new disk")
        operator.asks("fail 1 0")
        host.reads(0, 24)
        host.writes(0, b"v" * 12288)
        self.wants(operator.waits("health", ["out 1"]), ["out 1"], "the health after a fault")
        self.wants(disks()[1][2:], (1, "failed"), "the disk that has failed")

    def test_a_fifth_operator(self):
        server = self.serve()
        operators = [self.kept(server.operator()) for _ in range(4)]
        for operator in operators:
            self.wants(operator.answer_to(b"health\n"), "whole\n", "one of four operators")
        fifth = self.kept(server.operator())
        self.wants(rest_of(fifth.link), b"fault: too many operators\n", "a fifth operator")
        self.wants(server.answers_to("health\n"), "fault: too many operators\n", "a fifth operator who asks")
        operators.pop().close()
        # (the end of a connection is seen a little later)
        begun = time.monotonic()
        while (said := server.answers_to("stop\n")) != "stopped\n" and time.monotonic() - begun < 20:
            time.sleep(0.05)
        self.wants(said, "stopped\n", "a stop once an operator has left")
        self.ends(server, [0, 0, 0, 0])
