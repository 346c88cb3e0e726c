"""How much memory the built program takes: for arrays that are filled to their last block, for READs, for a served
history; and what a server does that has no more.

An array may take at most 1.1 times its disks, its cached blocks and its history, beside what the program takes with the
smallest array. One for which there is no memory is refused with one line. The figures are the most that was resident at
any moment; with FIGURES=1 each is printed, and the largest array of large blocks is tried too, with 12 GiB of disks.
"""
import os
import re
import resource
import time
import unittest.mock

from tests.harness import ACCEPTED, BUSY, GOOD, TEST_UNIT_READY, Case, Ended, connected, free_port, most_resident
from tests.harness import program, ran, rest_of, text_of, untimed, write_10

FIGURES = os.environ.get("FIGURES")
KIB, MIB, SECTOR = 1 << 10, 1 << 20, 512
MOST = 1.1
# The greatest length of a unit, and as many sectors as a write has here.
UNIT, PART = 1 << 20, 128
# By geometry: the bytes of a block, and the rows of an extent.
SHAPES = {"small": (1 << 10, 2), "paper": (1 << 16, 16)}
LARGEST = ("paper", 12, 1024, 0)
# What is logged of a history that takes a good part of the memory.
SHARE = re.compile(r"\[WARN  autoraid\] the history takes (\d+) % of the memory: (\d+) of (\d+) MiB")
# What a command takes beside its data: an entry of the history, and one of its host's transcript.
ENTRY = 136 + 128


def words_of(geometry, disks, extents, cache):
    return ["--geometry", geometry, "--disks", disks, "--extents", extents, "--cache", cache]


def filling(sectors):
    """The lines that make units of this many sectors together, and write them all."""
    for number, first in enumerate(range(0, sectors, UNIT)):
        unit, length = f"{number // 8} {number % 8}", min(UNIT, sectors - first)
        yield f"make {unit} {length}"
        for lba in range(0, length, PART):
            yield f"write {unit} {lba} {min(PART, length - lba)} 5A"


class Memory(Case):
    def asked(self, words, lines, what="VmHWM"):
        """The last answer to these lines, each of one line, and the memory in bytes that was taken until it came."""
        running, answer = self.starts(program("autoraid"), "run", *words, stdin=-1), ""
        with running.process.stdin as script:
            for line in lines:
                script.write(line + "\n")
                script.flush()
                answer = running.line().strip()
                if line.startswith(("make", "write")) and answer not in ("ok", "good"):
                    self.wants(answer, "ok or good", line)
            return answer, most_resident(running.pid, what) * KIB

    def is_within(self, what, taken, needed):
        if FIGURES:
            print(f"{what}: {taken / MIB:,.1f} MiB, {taken / needed:.2f} of {needed / MIB:,.1f} MiB")
        wanted = f"{what}: at most {MOST} times {needed / MIB:,.1f} MiB"
        self.holds(taken <= MOST * needed, wanted, f"{taken / MIB:,.1f} MiB")

    def fills(self, geometry, disks, extents, cache):
        """An array that is filled to its last block takes no more than it may."""
        smallest = self.asked([], ["room"])[1]
        words, (block, rows) = words_of(geometry, disks, extents, cache), SHAPES[geometry]
        room = int(self.asked(words, ["room"])[0].removeprefix("room "))
        answer, most = self.asked(words, [*filling(room * block // SECTOR), "room"])
        self.wants(answer, "room 0", "the room of a full array")
        needed = disks * extents * rows * block + min(cache, room) * block
        self.is_within(f"{words}, filled with {room:,} blocks", most - smallest, needed)

    def test_full_array(self):
        self.fills("small", 12, 1024, 0)

    def test_full_array_with_a_cache(self):
        self.fills("small", 12, 1024, 65536)

    def test_full_array_of_large_blocks(self):
        self.fills("paper", 4, 64, 0)

    def test_full_array_of_large_blocks_with_a_cache(self):
        self.fills("paper", 4, 64, 1024)

    if FIGURES:

        def test_largest_array(self):
            self.seconds = 600
            self.fills(*LARGEST)

    def refused(self, *array):
        """An array for which there is no memory ends the program with one line."""
        said = ran(program("autoraid"), "run", *words_of(*array), limits={resource.RLIMIT_AS: 1 << 30})
        self.wants(said, Ended(1, "", "start fault\n"), "an array that doesn't fit into 1 GiB")

    def test_no_memory_for_the_disks(self):
        self.refused(*LARGEST)

    def test_no_memory_for_the_cache(self):
        self.refused("paper", 4, 1024, 65536)

    def test_short_reads_in_little(self):
        """Short READs need little more than the array: none takes the memory of the longest, 32 MiB."""
        limit = self.asked([], ["room"], "VmPeak")[1] + 4 * MIB
        lines = ["make 0 0 8", "write 0 0 0 8 5A", *["read 0 0 0 2", "read16 0 0 2 6"] * 500]
        wanted = ["ok", "good", *["good 1024x5A", "good 3072x5A"] * 500]
        said = ran(program("autoraid"), "run", text="\n".join(lines) + "\n", limits={resource.RLIMIT_AS: limit})
        self.wants(said.out.splitlines(), wanted, "READs with 4 MiB beside the smallest array")

    def taken_by(self, commands, sectors, audit):
        """What a served array takes besides once a host has written some sectors a number of times."""
        server = self.serve("--sessions", "1", "--extents", "64", "0:0:128", doors=(), audit=audit)
        host = server.log_in(0)
        self.wants(host.greeting, ACCEPTED, "a login")
        block, data = write_10(0, sectors) if sectors else TEST_UNIT_READY, bytes(sectors * SECTOR)
        before = most_resident(server.pid)
        for _ in range(commands):
            said = host.asks(block, data)
            if said.status != GOOD:
                self.wants(said.status, GOOD, f"command {host.tag}")
        after = most_resident(server.pid)
        host.close()
        self.ends(server, [commands, 0, 0, 0])
        return (after - before) * KIB

    def keeps(self, commands, sectors):
        """The history of this many commands takes no more than it may."""
        # (the places of its lists that aren't used yet are addresses, and not resident)
        taken, needed = self.taken_by(commands, sectors, "full"), commands * (ENTRY + sectors * SECTOR)
        self.is_within(f"the history of {commands:,} commands with {sectors} sectors each", taken, needed)

    def test_history_of_writes(self):
        self.keeps(4_000, 128)

    def test_history_of_short_commands(self):
        self.keeps(60_000, 0)

    def keeps_nothing(self, commands, sectors):
        taken = self.taken_by(commands, sectors, "off")
        wanted = f"without an audit {commands:,} commands take at most 4 MiB permanently"
        self.holds(taken <= 4 * MIB, wanted, f"{taken / MIB:.1f} MiB")

    def test_no_history_of_writes(self):
        self.keeps_nothing(4_000, 128)

    def test_no_history_of_short_commands(self):
        self.keeps_nothing(60_000, 8)


class NoMore(Case):
    """Servers with a limit of the system on their memory."""

    DOORS = ("operator", "http", "iscsi")
    # What the start script has the C library do for a server that keeps a history.
    TUNABLES = "glibc.malloc.arena_max=1"

    def setUp(self):
        super().setUp()
        self.holds(self.TUNABLES in text_of("packaging", "start"), "the start script's tunables", self.TUNABLES)
        patched = unittest.mock.patch.dict(os.environ, GLIBC_TUNABLES=self.TUNABLES)
        patched.start()
        self.addCleanup(patched.stop)

    def tasks(self, pid):
        """How many threads a program has."""
        return len(os.listdir(f"/proc/{pid}/task"))

    def most_of_a_start(self):
        """The memory in bytes, as addresses, that a server takes which nobody uses, and its threads at `listening`."""
        server = self.serve("--extents", "16", "0:0:128", doors=self.DOORS)
        threads = self.tasks(server.pid)
        time.sleep(1)
        self.wants(threads, self.tasks(server.pid), "the threads when it listens, and a second later")
        most = most_resident(server.pid, "VmPeak") * KIB
        self.stops(server, [0, 0, 0, 0])
        return most, threads

    def test_threads_at_the_start(self):
        """All threads are there when it listens, or it ends without."""
        most, threads = self.most_of_a_start()
        for sixteenth in range(6, 17):
            doors = [word for door in self.DOORS for word in (f"--{door}", free_port())]
            words = [program("autoraid"), "serve", "--port", free_port(), "--extents", "16", *doors]
            running = self.starts(*words, limits={resource.RLIMIT_AS: most * sixteenth // 16})
            said = running.line()
            if said.startswith("listening "):
                self.wants(self.tasks(running.pid), threads, f"the threads with {sixteenth}/16 of the memory")
                running.kill()
            else:
                ended = running.ended()
                is_refused = said == "" and ended.status == 1 and ended.error in ("no memory\n", "start fault\n")
                self.holds(is_refused, "a service or one message", (said, ended))

    def test_memory_that_is_used_up(self):
        """How much the history takes and who is refused is logged, and operators are let in."""
        limit = self.most_of_a_start()[0] + 64 * MIB
        how = {"doors": self.DOORS, "limits": {resource.RLIMIT_AS: limit}}
        server = self.serve("--extents", "16", "0:0:128", **how)
        host, commands = self.kept(server.log_in(0)), 0
        while (said := host.writes(0, bytes(128 * SECTOR))).status == GOOD:
            commands += 1
            if commands % 64 == 0:
                # (three looks at the array, which are a tenth of a second apart, for each 4 MiB)
                time.sleep(0.3)
        self.wants(said.status, BUSY, f"command {commands + 1}")
        begun = time.monotonic()
        for _ in range(50):
            with connected(server.iscsi_port) as link:
                self.wants(rest_of(link), b"", "what an initiator receives that is refused")
        passed = time.monotonic() - begun
        self.wants(server.answers_to("health\n"), "whole\n", "an operator")
        self.wants(server.answers_to("stop\n"), "stopped\n", "an operator's stop")
        lines = untimed(self.ends(server, error=None).error).splitlines()
        lines = self.without_shares(lines, 64)
        self.wants(set(lines), {"[WARN  autoraid] an initiator was refused: no memory"}, "the server's standard error")
        self.holds(1 <= len(lines) <= passed + 2, "a line a second at most", (len(lines), passed))

    def without_shares(self, lines, room):
        """The lines but those of a history that takes 50, 80, 90 % of the memory, each of which is there once.

        A look that comes late on a busy machine warns of the greatest alone.
        """
        said = [SHARE.fullmatch(line) for line in lines]
        shares = [[int(number) for number in share.groups()] for share in said if share]
        percentages = [share for share, _, _ in shares]
        wanted = [share for share in (50, 80, 90) if share in percentages or share == 90]
        self.wants(percentages, wanted, "the percentages that the log has")
        for share, taken, memory in shares:
            is_right = share * memory <= 100 * (taken + 1) and taken <= memory + 1
            self.holds(is_right, f"at least {share} % of the memory", (taken, memory))
            # (the session and its log take some of it, and what is above the limit is left of the start)
            self.holds(abs(memory - room) <= room / 4, f"a memory of about {room} MiB", memory)
        return [line for line, share in zip(lines, said) if not share]
