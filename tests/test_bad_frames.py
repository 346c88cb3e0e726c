"""Clients that keep no rule, beside one that does and notices nothing.

They send garbage, stop in the middle of a login or of a frame, reset their connection, never log in, never read their
answers, or send a byte at a time. All the while host 0 writes and reads its unit, and each of its answers has to be the
one that a plain list of sectors gives. At the end the server has to have counted exactly what was answered, and agree
with every transcript.
"""
import contextlib
import random
import socket
import struct
import threading
import time

from tests.harness import ACCEPTED, GOOD, LOGIN, REFUSED, TEST_UNIT_READY, Case, Host, Reply, answered, connected
from tests.harness import exactly, frame, most_resident, read_10, reset, sends_slowly, waited, write_10

SECTORS, TURNS = 256, 400
# What a session sends that keeps no rule: the front of a WRITE of one sector and of one of 64, and lengths out of
# bounds, and at the upper one.
HALF_A_FRAME = frame(1, write_10(0, 1), bytes(512))[:100]
PART_OF_A_WRITE = frame(1, write_10(0, 64), bytes(64 * 512))[:5000]
TOO_SMALL, LARGEST, TOO_LARGE, ALL_ONES = 24, 0x01FFFE19, 0x01FFFE1A, 0xFFFFFFFF
GARBAGE = random.Random(7).randbytes(4096)
# Resident memory in KiB: that of the program and its threads, and of what the history keeps of some 400 commands of 8
# sectors.
BOUND = 64 * 1024


def announces(length, count=64):
    """The front of a frame of this length, with as many of its bytes."""
    return struct.pack(">I", length) + bytes(count)


def fill(host, sectors=SECTORS):
    """Asks for a whole unit over and over and reads nothing, until the answers fill what lies between the two."""
    host.link.settimeout(0.5)
    with contextlib.suppress(TimeoutError, BlockingIOError):
        for _ in range(3000):
            host.sends(read_10(0, sectors))


class Beside:
    """A host that writes and reads by host 0 in the background, and compares each answer with a plain list."""

    def __init__(self, server, turns):
        self.host, self.turns, self.done, self.fault = server.log_in(0), turns, threading.Event(), None
        self.thread = threading.Thread(target=self.run)
        self.thread.start()

    def run(self):
        plain, drawn = bytearray(SECTORS * 512), random.Random(3)
        while self.host.tag < self.turns or not self.done.is_set():
            at, count = drawn.randrange(SECTORS - 8), drawn.randrange(1, 9)
            if self.host.tag % 2 == 0:
                data = drawn.randbytes(512 * count)
                plain[512 * at : 512 * (at + count)] = data
                said, wanted = self.host.writes(at, data), b""
            else:
                said, wanted = self.host.reads(at, count), bytes(plain[512 * at : 512 * (at + count)])
            if said != Reply(self.host.tag, GOOD, b"", wanted):
                self.fault = said
                return
            if self.host.tag >= self.turns:
                time.sleep(0.002)

    def ends(self, case):
        """Looks that each of its answers was right, and returns how many there were."""
        self.done.set()
        self.thread.join(60)
        case.wants(self.fault, None, f"a wrong answer to host 0, the one to its command {self.host.tag}")
        self.host.close()
        return self.host.tag


class BadFrames(Case):
    def setUp(self):
        super().setUp()
        options = ["--disks", "4", "--extents", "256", "--cache", "16"]
        self.server = self.serve(*options, f"0:0:{SECTORS}", f"2:0:{SECTORS}")
        self.beside = Beside(self.server, TURNS // 10)
        self.addCleanup(self.beside.done.set)

    def finish(self, commands_of_host_1=0):
        """Ends the host beside, and the service; each host's commands are counted."""
        turns = self.beside.ends(self)
        self.wants(self.server.wait_for_none(), "", "sessions once all have left")
        self.stops(self.server, [turns, commands_of_host_1, 0, 0])

    def log_in(self):
        host = self.server.log_in_again(1)
        self.wants(host.greeting, ACCEPTED, "a login")
        return host

    def test_garbage(self):
        with connected(self.server.port) as link:
            link.sendall(GARBAGE)
            said = b""
            with contextlib.suppress(ConnectionResetError):
                said = exactly(link, 2)
        self.wants(said[:1] or REFUSED, REFUSED, "the answer to garbage")
        self.finish()

    def test_half_a_login(self):
        self.wants(answered(self.server.port, LOGIN[:5]), b"", "the answer to half a login")
        self.finish()

    def test_host_in_use(self):
        second = Host(self.server.port, 0)
        second.close()
        self.wants(second.greeting, REFUSED, "a second session of host 0")
        self.finish()

    def test_half_a_frame(self):
        host = self.log_in()
        host.link.sendall(HALF_A_FRAME)
        host.link.shutdown(socket.SHUT_WR)
        self.wants(exactly(host.link, 1), b"", "the answer to half a frame")
        host.close()
        self.finish()

    def length(self, length):
        """A frame whose length is out of bounds ends the session."""
        host = self.log_in()
        host.link.sendall(announces(length))
        said = b""
        with contextlib.suppress(ConnectionResetError):
            said = exactly(host.link, 1)
        self.wants(said, b"", f"the answer to a frame of {length} bytes")
        host.close()
        self.finish()

    def test_length_too_small(self):
        self.length(TOO_SMALL)

    def test_length_too_large(self):
        self.length(TOO_LARGE)

    def test_length_of_all_ones(self):
        self.length(ALL_ONES)

    def test_reset_in_a_frame(self):
        host = self.log_in()
        host.link.sendall(PART_OF_A_WRITE)
        reset(host.link)
        self.finish()

    def test_reset_after_login(self):
        reset(self.log_in().link)
        self.finish()

    def test_largest_frame_announced(self):
        host = self.log_in()
        host.link.sendall(announces(LARGEST, 1000))
        time.sleep(0.2)
        reset(host.link)
        self.finish()

    def test_cut_at_each_byte(self):
        """A login and a WRITE that end before their last byte: nothing is done, or answered but the login."""
        whole = LOGIN + b"\2" + frame(1, write_10(0, 1), b"\xCC" * 512)
        ends = [*range(60), *range(60, len(whole), 37), len(whole) - 1]
        answers = {9 <= end: set() for end in ends}
        for end in ends:
            said = waited(lambda: answered(self.server.port, whole[:end]), ACCEPTED if end >= 9 else b"", seconds=5)
            answers[end >= 9].add(said)
        self.wants(answers, {False: {b""}, True: {ACCEPTED}}, "the answers to a cut login, and to a cut frame")
        host = self.server.log_in_again(2)
        self.wants(host.reads(0, 1), Reply(1, GOOD, b"", bytes(512)), "a READ of what was cut")
        host.close()
        turns = self.beside.ends(self)
        self.wants(self.server.wait_for_none(), "", "sessions once all have left")
        self.stops(self.server, [turns, 0, 1, 0])

    def test_byte_by_byte(self):
        host = self.log_in()
        sends_slowly(host.link, frame(9, TEST_UNIT_READY), pause=0.005)
        # (host 1 has no unit)
        self.wants(host.receives()[:2], (9, 2), "the answer to a frame that comes byte by byte")
        host.close()
        self.finish(1)

    def test_memory_beside_all_of_them(self):
        """32 that never log in, one that never reads, and those that stop midway: memory is within its bound."""
        silent = [connected(self.server.port) for _ in range(32)]
        slow = self.kept(self.server.log_in(2))
        self.wants(slow.greeting, ACCEPTED, "the login of a host that never reads")
        fill(slow)
        for sent in LOGIN[:5], LOGIN + b"\1" + announces(ALL_ONES, 0), GARBAGE:
            answered(self.server.port, sent)
        for _ in range(4):
            host = self.log_in()
            host.link.sendall(announces(LARGEST, 5000))
            reset(host.link)
        # (as many commands as in a longer run)
        begun = time.monotonic()
        while self.beside.host.tag < TURNS and time.monotonic() - begun < 30:
            time.sleep(0.01)
        used = most_resident(self.server.pid)
        self.holds(used <= BOUND, f"at most {BOUND} KiB are resident", f"{used} KiB")
        reset(slow.link)
        for number, link in enumerate(silent):
            reset(link) if number % 2 else link.close()
        turns = self.beside.ends(self)
        self.holds(turns >= TURNS, f"at least {TURNS} commands of host 0", turns)
        self.wants(self.server.wait_for_none(), "", "sessions once all have left")
        self.wants(self.server.answers_to("stop\n"), "stopped\n", "a stop")
        report = self.ends(self.server).out.splitlines()
        # (of the commands of host 2 some were answered)
        wanted = [f"host 0 commands {turns}", "host 1 commands 0", "host 3 commands 0", "closed ok"]
        self.wants(report[:2] + report[3:], wanted, "the report, but for host 2")
