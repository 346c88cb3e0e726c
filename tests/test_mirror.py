"""A store in two folders: one copy is lost, cut, damaged, filled up or older, and nothing that was to last is."""
import os
import random
import shutil

from tests.harness import GOOD, program, ran
from tests.test_kills import Kills
from tests.test_store import FILES, Stored, forced_write, sector_of


def flip(path, at, bits):
    with open(path, "r+b") as file:
        file.seek(at)
        byte = file.read(1)[0]
        file.seek(at)
        file.write(bytes([byte ^ bits]))


def damage(folder, chance):
    """Loses, cuts or damages a copy, as a random number has it. Returns how."""
    how = chance.choice(("lost", "no selector", "cut", "flipped"))
    name = os.path.join(folder, chance.choice(FILES))
    if how == "lost":
        shutil.rmtree(folder)
    elif how == "no selector":
        os.remove(os.path.join(folder, "selector"))
    elif length := os.path.getsize(name):
        at = chance.randrange(length)
        if how == "cut":
            os.truncate(name, at)
        else:
            # (the parity of the selector's byte is its meaning)
            flip(name, at, 2 if "selector" in name else chance.randrange(1, 256))
    return f"{how}: {os.path.relpath(name, os.path.dirname(folder))}"


# A unit of eight WRITEs of 32 KiB, and how many more of them are made than fit into a file system of 256 KiB.
UNIT, WRITES = "0:0:512", 16


class Mirrored(Stored):
    def setUp(self):
        super().setUp()
        self.mirror = os.path.join(self.room, "mirror")
        self.folders = self.store, self.mirror

    def creates(self, *words):
        words = words or ("--extents", "64")
        ended = ran(program("autoraid"), "create", "--store", self.store, "--mirror", self.mirror, *words)
        self.wants(ended, (0, f"created {self.store} and {self.mirror}\n", ""), "the creation of a store")

    def takes_up(self, *words, **how):
        return super().takes_up("--mirror", self.mirror, *words, **how)

    def refused(self, wanted, *words, status=1):
        super().refused(wanted, "--mirror", self.mirror, *words, status=status)

    def files_of(self, folder):
        found = []
        for name in FILES:
            with open(os.path.join(folder, name), "rb") as file:
                found.append(file.read())
        return found

    def are_same(self, when):
        """Looks that both copies have the same bytes."""
        self.holds(self.files_of(self.store) == self.files_of(self.mirror), f"{when}: two copies of the same bytes", "")

    def writes(self, server, first, count):
        """Has these sectors written so that they last."""
        host = self.host(server, 0)
        host.is_ready()
        for lba in range(first, first + count):
            self.wants(host.asks(forced_write(lba, 1), sector_of(lba + 1)).status, GOOD, f"a WRITE of sector {lba}")
        host.close()

    def holds_sectors(self, server, count, when):
        host = self.host(server, 0)
        host.is_ready()
        found = host.reads(0, count).data
        wanted = b"".join(sector_of(lba + 1) for lba in range(count))
        self.holds(found == wanted, f"{when}: {count} sectors", found[:64])
        host.close()

    def killed_after(self, first, count):
        server = self.takes_up("0:0:64")
        self.writes(server, first, count)
        server.kill()


class Copies(Mirrored):
    def test_both_are_kept(self):
        self.creates()
        self.are_same("after the creation")
        self.killed_after(0, 8)
        self.are_same("after a kill")
        server = self.takes_up("0:0:64")
        self.holds_sectors(server, 8, "after a kill")
        self.wants(server.answers_to("health\n"), "whole\n", "the health")
        self.stops(server)
        self.are_same("after a stop")

    def test_either_is_lost(self):
        """After a kill the contents are those of the copy that is left, and the other is written again."""
        self.creates()
        for number, folder in enumerate(self.folders * 2):
            self.killed_after(8 * number, 8)
            if number < 2:
                shutil.rmtree(folder)
            else:
                os.truncate(os.path.join(folder, "selector"), 0)
            server = self.takes_up("0:0:64")
            self.holds_sectors(server, 8 * number + 8, f"without {folder}")
            server.kill()
            said = server.ended().error
            self.holds(f"store {folder}: written again from the other copy" in said, "a line of the log", said)
            self.are_same(f"after a start without {folder}")

    def test_each_file_is_damaged(self):
        self.creates()
        chance = random.Random(1)
        for number in range(8):
            self.killed_after(8 * (number % 8), 8)
            how = damage(self.folders[number % 2], chance)
            server = self.takes_up("0:0:64")
            self.holds_sectors(server, min(8 * number + 8, 64), how)
            server.kill()
            self.are_same(how)

    def test_an_older_copy(self):
        """A copy that was out for a while is brought up to the other."""
        self.creates()
        self.killed_after(0, 4)
        alone = Stored.takes_up(self, "0:0:64")
        self.writes(alone, 4, 4)
        alone.kill()
        server = self.takes_up("0:0:64")
        self.holds_sectors(server, 8, "after the first copy alone")
        self.stops(server)
        shutil.move(self.store, self.store + ".old")
        self.store, self.mirror = self.mirror, self.store
        server = self.takes_up("0:0:64")
        self.holds_sectors(server, 8, "from the other copy alone")
        self.stops(server, error=None)

    def test_refused(self):
        """A copy of another array, and a folder that is in use, are refused, and nothing is written."""
        self.creates()
        other = os.path.join(self.room, "other")
        self.wants(ran(program("autoraid"), "create", "--store", other).status, 0, "the creation of another store")
        before = self.files_of(other)
        kept, self.mirror = self.mirror, other
        self.refused(f"store {other}: the store of another array")
        self.wants(self.files_of(other) == before, True, "the other store is as it was")
        self.mirror = kept
        server = self.takes_up("0:0:8")
        self.refused(f"store {self.store}: in use by process {server.pid}")
        self.stops(server)
        ended = ran(program("autoraid"), "create", "--store", self.store + "2", "--mirror", self.mirror)
        wanted = 1, f"store {self.mirror}: a store is there\n"
        self.wants((ended.status, ended.error), wanted, "a creation over a copy")
        self.holds(not os.path.exists(self.store + "2"), "no folder is made", self.store + "2")


class Degraded(Mirrored):
    def mounts(self, path):
        """Mounts a file system of 256 KiB there, and answers whether the system lets it."""
        os.mkdir(path)
        if os.geteuid() or ran("mount", "-t", "tmpfs", "-o", "size=256k", "none", path).status:
            return False
        self.addCleanup(ran, "umount", "-l", path)
        return True

    def test_a_full_copy(self):
        """A copy that can't be written is given up and reported, and the other goes on."""
        small = os.path.join(self.room, "small")
        for which in range(2):
            if not self.mounts(f"{small}{which}"):
                self.skipTest("no file system can be mounted")
            folders = [os.path.join(self.room, f"large{which}"), f"{small}{which}/copy"]
            self.store, self.mirror = reversed(folders) if which else folders
            self.creates()
            server = self.takes_up(UNIT, doors=("operator", "http"))
            host = self.host(server, 0)
            host.is_ready()
            for number in range(WRITES):
                reply = host.asks(forced_write(number % 8 * 64, 64), sector_of(number + 1) * 64)
                self.wants(reply.status, GOOD, f"WRITE {number} beside a full copy")
            said = server.answers_to("health\n"), server.status_json()["store"]["state"]
            self.wants(said, ("whole\nstore degraded\n", "degraded"), "the health, and the store as JSON")
            said = [server.sample(f'autoraid_store_state{{state="{state}"}}') for state in ("sound", "degraded")]
            self.wants(said, ["0", "1"], "the state in metrics")
            host.close()
            self.wants(server.answers_to("stop\n"), "stopped\n", "an operator's stop")
            ended = server.ended()
            self.wants((ended.status, ended.error.count(" WARN  autoraid] store degraded: ")), (0, 1), "one warning")
            self.store = folders[0]
            alone = Stored.takes_up(self, UNIT)
            host = self.host(alone, 0)
            host.is_ready()
            found = [host.reads(number % 8 * 64, 1).data for number in range(WRITES - 8, WRITES)]
            wanted = [sector_of(number + 1) for number in range(WRITES - 8, WRITES)]
            self.holds(found == wanted, "the last WRITEs in the copy that is left", found[0][:16])
            host.close()
            alone.kill()


class KillsOfTwoCopies(Mirrored, Kills):
    """The hosts of `Kills`; between a kill and the start one of the copies is lost, cut or damaged."""

    def looked_at(self, when, *words):
        how = damage(self.folders[self.random.randrange(2)], self.random)
        server = super().looked_at(f"{when}, {how}", *words)
        self.are_same(f"{when}, {how}")
        return server

    def stops(self, server):
        """Stops a server that may have said what became of a copy."""
        super().stops(server, error=None)

    def checks(self):
        self.are_same("at the end")
        return super().checks()
