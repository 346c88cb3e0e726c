"""A SQLite database on an ext4 on a unit, over kills of the server and of the program by which the unit is a file here:
to the file system as if power were cut. Each transaction that was committed is there, whole, and the files are sound.

    DATABASE_ROUNDS=50 python3 -m unittest -k committed_transactions

kills as often. Without /dev/fuse or a loop device, and unless as root, there is nothing to see.
"""
import os
import random
import sqlite3
import sys

from tests.harness import Server, program, ran
from tests.initiators import InitiatorCase

ROUNDS = int(os.environ.get("DATABASE_ROUNDS", "4"))
SIZE, ROWS = 5 << 20, 5
# How SQLite commits: with a directory that is synced after a journal is removed, too, a commit lasts in both modes.
MODES = ("DELETE", "EXTRA"), ("WAL", "FULL")
WRITER = f"""
import os, sqlite3, sys
base = sqlite3.connect(sys.argv[1], isolation_level=None)
for order in sys.argv[2:]:
    base.execute(order).fetchall()
first = base.execute("SELECT max(number) FROM transactions").fetchone()[0] or 0
for number in range(first + 1, 1 << 30):
    base.execute("BEGIN")
    for part in range({ROWS}):
        base.execute("INSERT INTO transactions VALUES (?, ?, ?)", (number, part, os.urandom(300)))
    base.execute("DELETE FROM transactions WHERE number <= ?", (number - 300,))
    base.execute("COMMIT")
    print(number, flush=True)
"""


class Databases(InitiatorCase):
    seconds = 120 + 30 * ROUNDS

    def setUp(self):
        super().setUp()
        self.store, self.mounted = os.path.join(self.room(), "store"), os.path.join(self.room(), "mounted")
        os.mkdir(self.mounted)

    def served(self):
        """A server of the store, and its unit as a file."""
        how = {"doors": ("operator", "iscsi"), "audit": None, "ending": "closed"}
        server = self.kept_server(Server("--store", self.store, f"0:0:{SIZE // 512}", **how))
        return server, *self.file_of(server, SIZE)

    def mounts(self, file):
        self.succeeds("mount", "-o", "loop", file, self.mounted)
        self.addCleanup(ran, "umount", "-l", self.mounted)

    def writes(self, mode, sync):
        """A program that commits one transaction after another, and prints the number of each."""
        table = "CREATE TABLE IF NOT EXISTS transactions (number INTEGER, part INTEGER, data BLOB)"
        orders = f"PRAGMA journal_mode={mode}", f"PRAGMA synchronous={sync}", "PRAGMA wal_autocheckpoint=100", table
        return self.starts(sys.executable, "-c", WRITER, os.path.join(self.mounted, "base"), *orders)

    def looks(self, committed, when):
        """Looks at the database: all that it has of a transaction is all of it, and none that was committed is lost."""
        path = os.path.join(self.mounted, "base")
        if not committed and not os.path.exists(path):
            return 0
        base = sqlite3.connect(path)
        self.wants(base.execute("PRAGMA integrity_check").fetchall(), [("ok",)], f"the integrity {when}")
        counts = dict(base.execute("SELECT number, count(DISTINCT part) FROM transactions GROUP BY number"))
        base.close()
        last = max(counts, default=0)
        wanted = dict.fromkeys(range(max(last - 299, 1), last + 1), ROWS)
        self.wants(counts, wanted, f"the rows of each transaction {when}")
        self.holds(last >= committed, f"transaction {committed} {when}", last)
        return last

    def kills(self, number, when):
        """Kills the server and what exports its unit in a run of transactions. Returns the last that was committed."""
        server, file, exporter = self.served()
        # (the journal is replayed, and what is found then is sound)
        self.succeeds("e2fsck", "-y", "-E", "journal_only", file)
        self.succeeds("e2fsck", "-fn", file)
        self.mounts(file)
        before = self.looks(self.committed, when)
        writer, committed = self.writes(*MODES[number % len(MODES)]), before
        enough = before + self.random.randrange(1, 80)
        while committed < enough and (line := writer.line()):
            committed = int(line)
        server.kill()
        exporter.kill()
        ended = writer.ended()
        self.holds(ended.status != 0, "an error of SQLite once the unit is gone", ended)
        self.succeeds("umount", self.mounted)
        self.succeeds("fusermount3", "-u", "-q", "-z", file)
        self.committed = max([committed, *map(int, ended.out.split())])
        self.holds(self.committed > before, f"a transaction after {before}, {when}", ended)

    def test_committed_transactions(self):
        if not os.path.exists("/dev/fuse") or not os.path.exists("/dev/loop-control") or os.geteuid():
            return
        said = ran(program("autoraid"), "create", "--store", self.store, "--extents", "1024")
        self.wants((said.status, said.error), (0, ""), "the creation of a store")
        self.committed, self.random = 0, random.Random(3)
        server, file, exporter = self.served()
        self.succeeds("mkfs.ext4", "-q", file)
        exporter.kill()
        server.kill()
        for number in range(ROUNDS):
            self.kills(number, f"after {number} kills")
        server, file, _ = self.served()
        self.succeeds("e2fsck", "-y", "-E", "journal_only", file)
        self.succeeds("e2fsck", "-fn", file)
        self.mounts(file)
        self.looks(self.committed, "after the last kill")
        self.succeeds("umount", self.mounted)
