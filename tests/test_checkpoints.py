"""Checkpoints while hosts go on: a log that has grown long is replaced by one of what the units hold.

    CHECKPOINT_KILLS=12 python3 -m unittest -k kills_in_checkpoints

kills at least that many servers, two without it. Each checkpoint takes some 64 MiB of WRITEs.
"""
import contextlib
import os
import random
import signal
import threading
import time

from tests.harness import GOOD, write_10
from tests.test_kills import SPARES
from tests.test_store import SECTOR, Stored, forced_write, sector_of

MIB = 1 << 20
# The length from which on a log is replaced, and what a WRITE of 1 MiB covers.
LEAST = 64 * MIB
PIECE = 2048
# The sectors of the units that are written while servers are killed: a successor takes several turns.
LONG, SHORT = 4 * PIECE, 96
# How many servers are killed at least; more, until a checkpoint was cut and one wasn't.
LEAST_KILLS = int(os.environ.get("CHECKPOINT_KILLS", "2"))
MOST_KILLS = LEAST_KILLS + 40
# An offset that no log has.
NEVER = 1 << 40


class Unit:
    """A unit and its host's WRITEs, over all kills: each sector has the number of the last one."""

    def __init__(self, host, sectors):
        self.host, self.sectors, self.random = host, sectors, random.Random(host)
        # The WRITEs as (LBA, count), the number of the last that lasts by its answer, and a reply that isn't GOOD.
        self.written, self.lasting, self.wrong = [], 0, None

    def write(self, session, lba, count, is_forced):
        """Returns whether it was answered."""
        self.written.append((lba, count))
        number, block = len(self.written), forced_write(lba, count) if is_forced else write_10(lba, count)
        reply = session.asks(block, sector_of(number) * count)
        if not reply:
            return False
        if reply.status != GOOD:
            self.wrong = reply
        elif is_forced:
            self.lasting = number
        return reply.status == GOOD

    def goes_on(self, session):
        """Writes single sectors until the session ends."""
        with contextlib.suppress(OSError):
            while self.write(session, self.random.randrange(self.sectors), 1, self.random.random() < 0.5):
                pass

    def fills(self, session, length):
        """Writes `length` bytes, or until the session ends: one MiB after the other. The last one makes all last."""
        with contextlib.suppress(OSError):
            for left in range(-(-length // MIB) - 1, -1, -1):
                if not self.write(session, len(self.written) * PIECE % self.sectors, PIECE, left % 2 == 0):
                    break

    def looks(self, case, session, when):
        """Compares the unit with a prefix of the WRITEs, which has all that were to last, and goes on from there."""
        pieces = [(lba, min(PIECE, self.sectors - lba)) for lba in range(0, self.sectors, PIECE)]
        data = b"".join(session.reads(*piece).data for piece in pieces)
        found = [int.from_bytes(data[at : at + 8], "big") for at in range(0, len(data), SECTOR)]
        end, wanted = max(found), [0] * self.sectors
        for number, (lba, count) in enumerate(self.written[:end], 1):
            wanted[lba : lba + count] = [number] * count
        case.wants(found, wanted, f"{when}: a prefix of the WRITEs of host {self.host}")
        case.holds(data == b"".join(map(sector_of, wanted)), f"{when}: whole sectors of host {self.host}", data)
        case.holds(end >= self.lasting, f"{when}: WRITE {self.lasting} of host {self.host} lasts", end)
        del self.written[end:]
        self.lasting = end


class Killer(threading.Thread):
    """Kills a server once a checkpoint has written an offset of the spare log, or else has come to its end."""

    def __init__(self, case, server, offset, later):
        super().__init__(daemon=True)
        self.server, self.offset, self.later = server, offset, later
        self.selector = case.opened("selector")
        self.before = self.selected()
        self.spare = case.opened(SPARES[self.before[0] % 2])
        self.front, self.stamp = self.written(), self.spare_stamp()
        # After the kill: whether the spare was written but isn't the log, and whether it has become the log.
        self.is_cut = self.is_whole = False

    def selected(self):
        """The selector's byte, which the end of a checkpoint changes."""
        return os.pread(self.selector.fileno(), 1, 0)

    def written(self):
        """What the spare has at the offset."""
        return os.pread(self.spare.fileno(), 8, self.offset)

    def spare_stamp(self):
        return os.fstat(self.spare.fileno()).st_mtime_ns

    def run(self):
        while self.written() == self.front and self.selected() == self.before and self.server.is_running():
            time.sleep(0.0002)
        time.sleep(self.later)
        self.server.kill()
        self.is_whole = self.selected() != self.before
        self.is_cut = not self.is_whole and self.spare_stamp() != self.stamp


class Checkpoints(Stored):
    seconds = 300 + 240 * LEAST_KILLS

    def serves(self, *units):
        return self.takes_up(*units, doors=("operator", "http"), patience=180)

    def left(self, server):
        """The bytes by which the log is too short to be replaced."""
        return LEAST - server.status_json()["store"]["log_bytes"]

    def replaces(self, server, unit, session, count):
        """Writes one sector after another until this many checkpoints were made."""
        waits = []
        while server.status_json()["store"]["checkpoints"] < count and len(waits) < 4000:
            begun = time.monotonic()
            self.wants(unit.write(session, len(unit.written) % unit.sectors, 1, True), True, "a WRITE meanwhile")
            waits.append(time.monotonic() - begun)
        store = server.status_json()["store"]
        self.wants((store["state"], store["checkpoints"]), ("sound", count), "the store after a checkpoint")
        self.holds(store["log_bytes"] < 4 * MIB, "a log of what the units hold", store)
        self.holds(len(waits) > 3, "WRITEs while it was made", waits)
        self.holds(sorted(waits)[len(waits) // 2] < 0.5, "most WRITEs wait for one turn of it", waits)

    def test_a_long_log_is_replaced(self):
        """Twice: contents are those of the last WRITEs, and the log is about as long as they are."""
        self.creates("--geometry", "paper", "--extents", "4")
        zero, one = self.units = Unit(0, PIECE), Unit(1, 64)
        server, sessions = self.looked_at("at first", f"0:0:{PIECE}", "1:0:64")
        for count in 1, 2:
            zero.fills(sessions[0], self.left(server))
            self.replaces(server, one, sessions[1], count)
        self.wants(one.write(sessions[1], 0, 1, True), True, "a WRITE afterwards")
        self.wants(zero.lasting, len(zero.written), "what was written before lasts")
        self.wants(server.sample("autoraid_store_checkpoints_total"), "2", "the metric")
        server.kill()
        self.wants(self.checks().out.splitlines()[-1].split()[-1], "3", "the generation")
        server, _ = self.looked_at("after two checkpoints")
        self.stops(server)

    def test_kills_in_checkpoints(self):
        """A kill at any moment of a checkpoint leaves the old log or the new one: all that was acknowledged."""
        self.creates("--geometry", "paper", "--extents", "4")
        self.units, self.generation, self.selector = (Unit(0, LONG), Unit(1, SHORT)), 1, b"\0"
        server, sessions = self.looked_at("at first", f"0:0:{LONG}", f"1:0:{SHORT}")
        # The front of the spare where a kill begins, and how many checkpoints were cut and how many were not.
        chance, front, cut, whole, rounds = random.Random(7), (LONG + SHORT) * SECTOR, 0, 0, 0
        while (rounds < LEAST_KILLS or not cut or not whole) and rounds < MOST_KILLS:
            rounds += 1
            is_late, later = rounds % 2 == 0, chance.random()
            # (each other kill comes after the end)
            offset, later = (NEVER, later * 0.02) if is_late else (int(chance.random() * front), later * 0.001)
            killer = Killer(self, server, offset, later)
            self.kills(killer, server, sessions, f"kill {rounds}")
            cut, whole = cut + killer.is_cut, whole + killer.is_whole
            if killer.is_whole and not is_late:
                front //= 2
            server, sessions = self.looked_at(f"after kill {rounds}")
        self.holds(cut and whole, "checkpoints that were cut, and others that weren't", (cut, whole))

    def opened(self, name):
        """A file of the store, for reading, until the case ends."""
        return self.kept(open(os.path.join(self.store, name), "rb", 0))

    def looked_at(self, when, *units):
        """A server whose units were compared by their hosts, and sessions of these."""
        server = self.serves(*units)
        sessions = [self.host(server, unit.host) for unit in self.units]
        for unit, session in zip(self.units, sessions):
            unit.looks(self, session, when)
        return server, sessions

    def kills(self, killer, server, sessions, when):
        """Makes the log long, and checks the store after the kill."""
        # (after a cut the log is long at the start, and may have been replaced already)
        self.generation += killer.before != self.selector
        left = self.left(server)
        writer = threading.Thread(target=self.units[1].goes_on, args=(sessions[1],), daemon=True)
        killer.start(), writer.start()
        self.units[0].fills(sessions[0], left)
        killer.join()
        ended = server.ended()
        self.wants((ended.status, ended.error), (-signal.SIGKILL, ""), f"{when}: the server's end")
        writer.join()
        self.wants([unit.wrong for unit in self.units], [None, None], f"{when}: replies that aren't GOOD")
        self.generation += killer.is_whole
        said = self.checks()
        self.wants((said.status, said.error), (0, ""), f"{when}: a check")
        self.wants(int(said.out.split()[-1]), self.generation, f"{when}: the generation")
        self.selector = killer.selected()
