"""Four hosts, two of them over iSCSI, write, read and compare while the server of their store is killed: beside their
commands, in recoveries, and while a stop replaces the log.

After each kill the units of a host hold what a front of its WRITEs makes of them, in their order and each whole. The
front has every WRITE that was to last: one with FORCE UNIT ACCESS, all that any host was answered before such a one or
a SYNCHRONIZE CACHE was sent, with `--sync always` each that was answered.

    KILL_SEED=7 KILL_MINUTES=60 python3 -m unittest -k hosts_and_kills

goes on for this many minutes.
"""
import contextlib
import os
import random
import struct
import threading
import time

from tests.harness import (
    GOOD,
    HOSTS,
    PATIENCE,
    TEST_UNIT_READY,
    Reply,
    connected,
    free_port,
    program,
    read_10,
    write_10,
)
from tests.test_store import SECTOR, Stored, forced_write

UNITS, SECTORS = 2, 96
# The sectors of a WRITE or READ, at most; how many of all commands are READs.
MOST, READS = 16, 0.2
OVER_ISCSI = 2, 3
SYNCHRONIZE_CACHE = struct.pack(">BBIBHB", 0x35, 0, 0, 0, 0, 0)
SEED, MINUTES = int(os.environ.get("KILL_SEED", 1)), float(os.environ.get("KILL_MINUTES", 0.2))
ROUNDS = "commands", "start", "commands", "stop", "commands", "whole stop"
# The log that isn't in use, by the parity of the selector's byte.
SPARES = "second.log", "first.log"
# Held while it is noted what lasts.
noting = threading.Lock()


def stamp(host, lun, lba, number):
    """A sector as the WRITE of this number leaves it; number 0 is none."""
    return struct.pack(">BBHIQ", host, lun, 0xA55A, lba, number) * (SECTOR // 16) if number else bytes(SECTOR)


class OverIscsi:
    """A session over iSCSI that is used as one of a `Host`."""

    def __init__(self, server, number):
        self.initiator = server.initiator(number)
        for lun in range(UNITS):
            # (the answer says that the session is new)
            self.initiator.asks(TEST_UNIT_READY, lun)

    def asks(self, block, data=b"", lun=0, expected=0):
        """Sends a command, with the data that go with it or that it expects."""
        flags = 0xA1 if data else 0xC1 if expected else 0x81
        found, said = self.initiator.asks(block, lun, flags, len(data) or expected, data)
        return said and Reply(0, said.status, said.sense, found)

    def reads(self, lba, count, lun=0):
        return self.asks(read_10(lba, count), lun=lun, expected=count * SECTOR)

    def close(self):
        self.initiator.close()


class Verifier:
    """A host over all kills: what it has written, and what of that is to last."""

    def __init__(self, number):
        self.number, self.random = number, random.Random(SEED * HOSTS + number)
        # What the units held after the last kill, as the number of each sector's last WRITE, and the last of them all.
        self.base, self.first = [[0] * SECTORS for _ in range(UNITS)], 0
        # The WRITEs since, as (LUN, LBA, count); the last that was answered, and the last that lasts.
        self.written, self.answered, self.lasting = [], 0, 0
        # The units by all that was answered, and what contradicts it.
        self.now, self.wrong = None, None

    def contents(self, last):
        """What the units hold after the WRITE of this number."""
        units = [list(unit) for unit in self.base]
        for number, (lun, lba, count) in enumerate(self.written[: max(last - self.first, 0)], self.first + 1):
            units[lun][lba : lba + count] = [number] * count
        return units

    def bytes_of(self, lun, lba, numbers):
        return b"".join(stamp(self.number, lun, at, number) for at, number in enumerate(numbers, lba))

    def looks(self, case, session, when):
        """Compares the units with a front of what was written, and goes on from there."""
        found = [session.reads(0, SECTORS, lun).data for lun in range(UNITS)]
        last = max(int.from_bytes(unit[at : at + 8], "big") for unit in found for at in range(8, len(unit), SECTOR))
        units = self.contents(last)
        for lun, unit in enumerate(units):
            is_so = found[lun] == self.bytes_of(lun, 0, unit)
            case.holds(is_so, f"{when}: unit {self.number}:{lun} after the first {last} WRITEs", found[lun])
        case.holds(last >= self.lasting, f"{when}: WRITE {self.lasting} of host {self.number} lasts", last)
        self.base, self.now, self.written = units, [list(unit) for unit in units], []
        self.first = self.answered = self.lasting = last

    def goes_on(self, session, hosts, forced, always):
        """Reads, writes and flushes until the session ends."""
        with contextlib.suppress(OSError):
            while not self.wrong and self.step(session, hosts, forced, always):
                pass

    def step(self, session, hosts, forced, always):
        """One command. Returns whether it was answered."""
        lun, lba = self.random.randrange(UNITS), self.random.randrange(SECTORS)
        count = self.random.randint(1, min(MOST, SECTORS - lba))
        if self.random.random() < READS:
            return self.reads(session, lun, lba, count)
        is_forced = self.random.random() < forced
        if is_forced and self.number in OVER_ISCSI and self.random.random() < 0.7:
            return self.flushes(session, hosts)
        return self.writes(session, hosts, (lun, lba, count), is_forced, is_forced or always)

    def reads(self, session, lun, lba, count):
        wanted = self.bytes_of(lun, lba, self.now[lun][lba : lba + count])
        reply = session.reads(lba, count, lun)
        # (a session may end in the midst of a reply)
        if not reply or reply.status == GOOD and len(reply.data) < len(wanted):
            return False
        if (reply.status, reply.data) != (GOOD, wanted):
            self.wrong = f"a READ of {lun}, {lba}, {count}", reply, wanted
        return True

    def writes(self, session, hosts, place, is_forced, lasts):
        (lun, lba, count), number = place, self.first + len(self.written) + 1
        before = [host.answered for host in hosts]
        self.written.append(place)
        block = forced_write(lba, count) if is_forced else write_10(lba, count)
        reply = session.asks(block, self.bytes_of(lun, lba, [number] * count), lun)
        if not self.is_good(reply, f"a WRITE of {place}"):
            return False
        self.now[lun][lba : lba + count], self.answered = [number] * count, number
        if lasts:
            before[self.number] = number
            self.note(hosts, before)
        return True

    def flushes(self, session, hosts):
        before = [host.answered for host in hosts]
        if not self.is_good(session.asks(SYNCHRONIZE_CACHE), "a SYNCHRONIZE CACHE"):
            return False
        self.note(hosts, before)
        return True

    def is_good(self, reply, what):
        if reply and reply.status != GOOD:
            self.wrong = what, reply
        return reply and reply.status == GOOD

    def note(self, hosts, before):
        """Notes that what hosts were answered then lasts."""
        with noting:
            for host, answered in zip(hosts, before):
                host.lasting = max(host.lasting, answered)


class Kills(Stored):
    seconds = int(90 + 60 * MINUTES)

    def test_hosts_and_kills(self):
        self.creates("--extents", "128")
        self.hosts, self.random = [Verifier(number) for number in range(HOSTS)], random.Random(SEED)
        begun, rounds = time.monotonic(), 0
        while rounds < len(ROUNDS) or time.monotonic() - begun < 60 * MINUTES:
            kind = ROUNDS[rounds % len(ROUNDS)]
            self.round(kind, f"seed {SEED}, round {rounds}, {kind}")
            rounds += 1
        self.stops(self.looked_at("at the end"))
        self.wants(self.checks().status, 0, "a check at the end")

    def round(self, kind, when):
        if kind == "start":
            ports = "--port", free_port(), "--operator", free_port()
            server = self.starts(program("autoraid"), "serve", *ports, "--store", self.store)
            time.sleep(self.random.random() * 0.1)
            return server.kill()
        always, forced = self.random.random() < 0.3, self.random.choice([0.02, 0.3])
        server = self.looked_at(when, "--sync", "always" if always else "flush")
        threads = [
            threading.Thread(target=host.goes_on, args=(session, self.hosts, forced, always), daemon=True)
            for host, session in zip(self.hosts, self.sessions)
        ]
        for thread in threads:
            thread.start()
        time.sleep(self.random.random() * 0.6)
        if kind == "commands":
            server.kill()
        else:
            self.cut_stop(server, kind == "whole stop")
        for thread in threads:
            thread.join(PATIENCE)
        for session in self.sessions:
            session.close()
        return self.wants([host.wrong for host in self.hosts], [None] * HOSTS, f"{when}: what hosts have seen")

    def looked_at(self, when, *words):
        """A server whose units have been compared by each host, in a session that goes on."""
        units = [f"{host}:{lun}:{SECTORS}" for host in range(HOSTS) for lun in range(UNITS)]
        server = self.takes_up(*words, *units, doors=("operator", "iscsi"))
        self.sessions = [
            OverIscsi(server, host.number) if host.number in OVER_ISCSI else server.log_in(host.number)
            for host in self.hosts
        ]
        for host, session in zip(self.hosts, self.sessions):
            host.looks(self, self.kept(session), when)
        return server

    def cut_stop(self, server, is_whole):
        """Stops a server, and kills it while the log is replaced, which begins with the one that isn't in use."""
        spare = os.path.join(self.store, SPARES[self.bytes_of("selector")[0] % 2])
        before, link = os.stat(spare).st_mtime_ns, self.kept(connected(server.operator_port))
        link.sendall(b"stop\n")
        if is_whole:
            return self.wants(server.ended().status, 0, "the status after a stop")
        while os.stat(spare).st_mtime_ns == before and server.is_running():
            time.sleep(0.0005)
        time.sleep(self.random.random() * 0.004)
        return server.kill()
