"""Contents that last: a store is created, filled, stopped, killed, filled up, damaged, and taken up again."""
import concurrent.futures
import fcntl
import os
import random
import re
import resource
import shutil
import struct
import subprocess
import tempfile
import time

from tests.harness import CHECK, GOOD, PATIENCE, Case, Server, connected, program, ran, untimed, waited
from tests.test_metrics import SAMPLE

SECTOR = 512
# How many stops are cut.
STOPS = 20
FILES = ("selector", "first.log", "second.log")


def forced_write(lba, count):
    """WRITE (10) with FORCE UNIT ACCESS."""
    return struct.pack(">BBIBHB", 0x2A, 0x08, lba, 0, count, 0)


def sector_of(number):
    """The contents by which a sector says which write it has; that of no write is zeros."""
    return struct.pack(">Q", number) * (SECTOR // 8)


class Stored(Case):
    """A case with a store of its own."""

    seconds = 300

    def setUp(self):
        super().setUp()
        self.room = tempfile.mkdtemp(prefix="store-")
        self.addCleanup(shutil.rmtree, self.room, True)
        self.store = os.path.join(self.room, "store")

    def creates(self, *words):
        words = words or ("--extents", "64")
        ended = ran(program("autoraid"), "create", "--store", self.store, *words)
        self.wants(ended, (0, f"created {self.store}\n", ""), "the creation of a store")

    def takes_up(self, *words, **how):
        """A server of the store."""
        return self.kept_server(Server("--store", self.store, *words, **{"audit": None, "ending": "closed", **how}))

    def host(self, server, number):
        """A session of a host, until the case ends."""
        return self.kept(server.log_in(number))

    def checks(self):
        return ran(program("autoraid"), "check", "--store", self.store, seconds=180)

    def refused(self, wanted, *words, status=1):
        """Looks that a server of the store doesn't start, and why."""
        line = [program("autoraid"), "serve", "--port", 1, "--operator", 2, "--store", self.store, *words]
        ended = ran(*line)
        self.wants((ended.status, ended.error.splitlines()[-1]), (status, wanted), "a start that is refused")

    def stamps(self):
        """What shows that a file of the store was written to."""
        return [os.stat(os.path.join(self.store, name)).st_mtime_ns for name in FILES]

    def bytes_of(self, name):
        with open(os.path.join(self.store, name), "rb") as file:
            return file.read()


class Created(Stored):
    """A creation that was killed is repeated."""

    def begins(self, when):
        """A creation over what is there makes a store that takes a WRITE."""
        self.refused(f"store {self.store}: no store is there")
        self.creates()
        server = self.takes_up("0:0:8")
        self.wants(self.host(server, 0).asks(forced_write(3, 1), sector_of(5)).status, GOOD, f"a WRITE {when}")
        server.kill()
        server = self.takes_up()
        self.wants(self.host(server, 0).reads(3, 1).data, sector_of(5), f"what was written {when}")
        server.kill()

    def leaves(self, **files):
        """Makes these the files of the folder."""
        shutil.rmtree(self.store, True)
        os.mkdir(self.store)
        for name, contents in files.items():
            with open(os.path.join(self.store, name.replace("_", ".")), "xb") as file:
                file.write(contents)

    def test_over_each_step(self):
        """The files are as after each step of a creation, whose logs are longer than those that follow."""
        self.creates("--name", "n" * 64)
        log = self.bytes_of("first.log")
        self.wants((self.bytes_of("selector"), self.bytes_of("second.log")), (b"\0", log), "the files of a creation")
        cuts = [log[:length] for length in (1, 8, len(log) // 2, len(log) - 1, len(log))]
        self.leaves()
        self.begins("in an empty folder")
        steps = [{}, {"first_log": b""}, {"first_log": b"", "second_log": b""}]
        steps += [{"first_log": cut, "second_log": b""} for cut in cuts]
        steps += [{"first_log": log, "second_log": cut} for cut in cuts]
        for step in steps:
            self.leaves(selector=b"", **step)
            self.begins({name: len(contents) for name, contents in step.items()})
        # (the last step is the selector's byte)
        self.leaves(selector=b"\0", first_log=log, second_log=log)
        before = self.stamps()
        ended = ran(program("autoraid"), "create", "--store", self.store)
        self.wants((ended.status, ended.error), (1, f"store {self.store}: a store is there\n"), "a second creation")
        self.wants(self.stamps(), before, "what a second creation has written")
        self.wants(self.checks().out, "ok: 0 units, 0 records, generation 1\n", "a check of the first")

    def test_over_kills(self):
        """A creation that is killed before each of its calls leaves no store or the whole one."""
        trace = ["strace", "-qq", "-o", "/dev/null"]
        if not shutil.which("strace") or ran(*trace, "true").status:
            return
        line, kills = [program("autoraid"), "create", "--store", self.store], [0, 0]
        for call in "mkdir", "openat", "flock", "ftruncate", "pwrite64", "fsync", "fdatasync":
            for number in range(1, 100):
                kill = f"inject={call}:signal=SIGKILL:when={number}"
                shutil.rmtree(self.store, True)
                if ran(*trace, "-e", f"trace={call}", "-e", kill, *line).status == 0:
                    break
                said = self.checks()
                is_there = said.status == 0
                kills[is_there] += 1
                if not is_there:
                    self.wants(said.error, f"store {self.store}: no store is there\n", f"at {call} {number}")
                    self.creates()
                    said = self.checks()
                self.wants(said, (0, "ok: 0 units, 0 records, generation 1\n", ""), f"a store after {call} {number}")
            self.holds(number < 100, f"an end of the calls of {call}", number)
        self.holds(kills[False] > 20, "kills that left no store", kills)

    def test_files_in_use(self):
        """Files that a creation has locked are not written."""
        self.leaves(selector=b"", first_log=b"something", second_log=b"")
        with open(os.path.join(self.store, "selector"), "rb") as selector:
            fcntl.flock(selector, fcntl.LOCK_EX)
            ended = ran(program("autoraid"), "create", "--store", self.store)
        cause = f"store {self.store}: in use by process {os.getpid()}\n"
        self.wants((ended.status, ended.error), (1, cause), "a creation beside another")
        self.wants([self.bytes_of(name) for name in FILES], [b"", b"something", b""], "the files of the other")
        self.begins("once the other has ended")


class Lasting(Stored):
    def test_over_a_stop(self):
        """Units, lengths and contents are as they were."""
        self.creates("--disks", "5", "--extents", "32")
        server = self.takes_up("0:0:64", "1:3:40")
        zero, one = self.host(server, 0), self.host(server, 1)
        for lba in range(0, 64, 4):
            self.wants(zero.writes(lba, sector_of(lba + 1) * 4).status, GOOD, "a WRITE")
        self.wants(one.writes(39, sector_of(77), lun=3).status, GOOD, "a WRITE of the last sector")
        zero.close(), one.close()
        self.stops(server)
        self.wants(self.checks().out.splitlines()[:2], ["unit 0 0 64", "unit 1 3 40"], "the units of a check")
        server = self.takes_up()
        self.wants(server.recovered.split(",")[0], "recovered 2 units", "what a start says")
        zero, one = self.host(server, 0), self.host(server, 1)
        wanted = b"".join(sector_of(lba + 1) * 4 for lba in range(0, 64, 4))
        self.wants(zero.reads(0, 64).data, wanted, "the contents after a stop")
        self.wants(one.reads(38, 2, lun=3).data, sector_of(0) + sector_of(77), "another unit's contents")
        self.stops(server)

    def test_kills_in_a_stop(self):
        """A kill while a stop replaces the log leaves the old one or the new one: all that was acknowledged."""
        self.creates("--geometry", "paper", "--extents", "4")
        wanted, generations = [0] * 1024, []
        for round_ in range(STOPS):
            server = self.takes_up("0:0:1024")
            host = self.host(server, 0)
            for lba in range(0, 1024, 64):
                number = round_ * 1024 + lba + 1
                self.wants(host.asks(forced_write(lba, 64), sector_of(number) * 64).status, GOOD, "a WRITE")
                wanted[lba : lba + 64] = [number] * 64
            host.close()
            before = self.stamps()
            connected(server.operator_port).sendall(b"stop\n")
            while self.stamps() == before and server.is_running():
                time.sleep(0.001)
            # (the last two stops come to their end)
            time.sleep(0.002 * round_)
            if round_ < STOPS - 2:
                server.kill()
            server.ended()
            said = self.checks()
            self.wants((said.status, said.error), (0, ""), f"a check after stop {round_}")
            generations.append(int(said.out.split()[-1]))
            server = self.takes_up()
            data = self.host(server, 0).reads(0, 1024).data
            self.wants(data, b"".join(map(sector_of, wanted)), f"the contents after stop {round_}")
            server.kill()
        self.wants(generations[-1], generations[-2] + 1, "the generation after a whole stop")
        self.wants(generations, sorted(generations), "the generations")

    def test_each_write_that_waits(self):
        """With `--sync always` each WRITE that was answered lasts."""
        self.creates()
        server = self.takes_up("0:0:64", "--sync", "always")
        host = self.host(server, 0)
        for number in range(1, 41):
            self.wants(host.writes(number, sector_of(number)).status, GOOD, "a WRITE")
        server.kill()
        host = self.host(self.takes_up(), 0)
        self.wants(host.reads(1, 40).data, b"".join(map(sector_of, range(1, 41))), "what was written one by one")

    def test_within_a_second(self):
        """A WRITE without FUA is committed within some two seconds."""
        self.creates()
        server = self.takes_up("0:0:8")
        self.host(server, 0).writes(3, sector_of(9))
        time.sleep(2.5)
        server.kill()
        self.wants(self.host(self.takes_up(), 0).reads(3, 1).data, sector_of(9), "a WRITE of two seconds ago")

    def test_flushed_by_an_initiator(self):
        """SYNCHRONIZE CACHE over iSCSI, and a stop by START STOP UNIT."""
        self.creates()
        for number, flush in (5, struct.pack(">BBIBHB", 0x35, 0, 0, 0, 0, 0)), (6, bytes([0x1B, 0, 0, 0, 0, 0])):
            server = self.takes_up("0:0:64", "--cache", "16", "--commit-every", "3600", doors=("operator", "iscsi"))
            initiator = self.kept(server.initiator(0))
            initiator.asks(bytes(6))
            block = struct.pack(">BBIBHB", 0x2A, 0, number, 0, 1, 0)
            _, said = initiator.asks(block, flags=0xA1, expected=SECTOR, data=sector_of(number))
            self.wants(said.status, GOOD, "a WRITE over iSCSI")
            _, said = initiator.asks(flush)
            self.wants(said.status, GOOD, "a flush")
            server.kill()
            server = self.takes_up()
            self.wants(self.host(server, 0).reads(number, 1).data, sector_of(number), "what was flushed")
            server.kill()

    def test_orders_of_operators(self):
        """Units that an operator made, extended and deleted stay so, and a pending UNIT ATTENTION."""
        self.creates()
        server = self.takes_up("0:0:8", "1:0:8")
        operator = self.kept(server.operator())
        self.wants(operator.asks("make 2 5 12"), ["ok"], "make")
        self.wants(operator.asks("grow 0 0 16"), ["ok"], "grow")
        self.wants(operator.asks("drop 1 0"), ["ok"], "drop")
        self.wants(operator.asks("add"), ["ok"], "add")
        server.kill()
        wanted = ["unit 0 0 16", "unit 2 5 12"]
        self.wants(self.checks().out.splitlines()[:-1], wanted, "the units after orders")
        host = self.host(self.takes_up(), 0)
        reply = host.asks(bytes(6))
        self.wants((reply.status, reply.sense[2], reply.sense[12:14]), (CHECK, 6, b"\x2a\x09"), "a pending attention")
        self.wants(host.is_ready(), True, "no attention twice")

    def test_room_of_an_added_disk(self):
        """A unit that needs the room of a disk that was added is there after a kill."""
        self.creates("--extents", "6")
        server = self.takes_up("0:0:8")
        operator = self.kept(server.operator())
        before = int(operator.asks("room")[0].split()[1])
        self.wants(operator.asks("add"), ["ok"], "add")
        begun = time.monotonic()
        while int(operator.asks("room")[0].split()[1]) <= before and time.monotonic() - begun < PATIENCE:
            time.sleep(0.05)
        room = int(operator.asks("room")[0].split()[1])
        self.holds(room > before, f"more room than {before}", room)
        self.wants(operator.asks(f"make 1 0 {2 * room}"), ["ok"], "a unit of all the room")
        host = self.host(server, 1)
        self.wants(host.asks(forced_write(2 * room - 1, 1), sector_of(7)).status, GOOD, "a WRITE of its last sector")
        server.kill()
        self.wants(self.checks().status, 0, "a check")
        server = self.takes_up("--disks", "5")
        self.wants(self.host(server, 1).reads(2 * room - 1, 1).data, sector_of(7), "what was written there")
        server.kill()
        self.refused(f"store {self.store}: it has 5 disks, and --disks says otherwise", "--disks", "4")

    def test_a_compacted_log(self):
        """A stop leaves a log of what the units hold, and a start from it finds them."""
        self.creates()
        server = self.takes_up("0:0:64", "1:0:16")
        host = self.host(server, 0)
        for number in range(1, 401):
            host.writes(number % 64, sector_of(number))
        self.stops(server)
        said = self.checks().out.splitlines()
        records, generation = (int(word) for word in re.findall(r"\d+", said[-1])[1:])
        self.holds(records < 10, "few records after a stop", said)
        self.wants(generation, 2, "the generation after a stop")
        server = self.takes_up()
        wanted = b"".join(sector_of(next(n for n in range(400, 0, -1) if n % 64 == lba)) for lba in range(64))
        self.wants(self.host(server, 0).reads(0, 64).data, wanted, "the contents of a compacted log")
        self.stops(server)
        self.wants(self.checks().out.splitlines()[-1].split()[-1], "3", "the generation after another")

    def test_a_cut_front(self):
        """What a crash has cut off of the last batch is no damage."""
        self.creates()
        server = self.takes_up("0:0:8")
        self.host(server, 0).asks(forced_write(1, 1), sector_of(1))
        server.kill()
        with open(os.path.join(self.store, "first.log"), "ab") as log:
            log.write(os.urandom(300))
        self.wants(self.host(self.takes_up(), 0).reads(1, 1).data, sector_of(1), "what was committed")


class Shared(Stored):
    """Commits that several hosts wait for."""

    WRITES = 60
    # A sync that takes 5 ms, so that the next commit is put off until other hosts' WRITEs have come. (A file lasts over
    # a kill without one.)
    SLOW = """
        #include <time.h>
        int fdatasync(int file) { struct timespec pause = {0, 5000000}; (void)file; return nanosleep(&pause, 0); }
    """

    def slow_syncs(self):
        """An environment in which each sync takes 5 ms."""
        source, library = os.path.join(self.room, "slow.c"), os.path.join(self.room, "slow.so")
        with open(source, "w", encoding="ascii") as file:
            file.write(self.SLOW)
        made = ran(os.environ.get("CC", "cc"), "-shared", "-fPIC", "-o", library, source)
        self.wants((made.status, made.error), (0, ""), "the library of slow syncs")
        return {**os.environ, "LD_PRELOAD": library}

    def commits(self, server):
        return int(server.sample("autoraid_store_commits_total"))

    def writes(self, host):
        """Forced WRITEs one after another, each GOOD, and the seconds of one."""
        begun = time.monotonic()
        for number in range(self.WRITES):
            self.wants(host.asks(forced_write(number, 1), sector_of(number)).status, GOOD, f"WRITE {number}")
        return (time.monotonic() - begun) / self.WRITES

    def test_hosts_share_commits(self):
        self.creates()
        units = [f"{number}:0:64" for number in range(4)]
        server = self.takes_up(*units, doors=("operator", "http"), env=self.slow_syncs())
        hosts = [self.host(server, number) for number in range(4)]
        before = self.commits(server)
        each = self.writes(hosts[0])
        alone = self.commits(server)
        self.wants(alone - before, self.WRITES, "commits of a host that is alone")
        self.holds(each >= 0.005, "a WRITE that waits for a sync", each)
        with concurrent.futures.ThreadPoolExecutor(4) as pool:
            list(pool.map(self.writes, hosts))
        shared, most = self.commits(server) - alone, 4 * self.WRITES * 19 // 20
        self.holds(shared <= most, f"at most {most} commits for {4 * self.WRITES} WRITEs", shared)
        wanted = b"".join(map(sector_of, range(self.WRITES)))
        server.kill()
        server = self.takes_up()
        for number in range(4):
            self.wants(self.host(server, number).reads(0, self.WRITES).data, wanted, f"host {number} after a kill")
        self.stops(server)


class Refused(Stored):
    def test_starts(self):
        """What isn't a store, or isn't this one, is refused with its cause, and nothing is written."""
        self.refused(f"store {self.store}: no store is there")
        self.holds(not os.path.exists(self.store), "no folder is made", self.store)
        self.creates("--geometry", "paper", "--disks", "6", "--extents", "3")
        ended = ran(program("autoraid"), "create", "--store", self.store)
        self.wants((ended.status, ended.error), (1, f"store {self.store}: a store is there\n"), "a second creation")
        before = [self.bytes_of(name) for name in FILES]
        says = f"store {self.store}: "
        self.refused(says + "it has another geometry than --geometry says", "--geometry", "small")
        self.refused(says + "it has 6 disks, and --disks says otherwise", "--disks", "5")
        self.refused(says + "its disks have 3 extents, and --extents says otherwise", "--extents", "4")
        self.wants([self.bytes_of(name) for name in FILES], before, "the files after refusals")
        os.remove(os.path.join(self.store, "second.log"))
        self.refused(says + "some of its files are missing")

    def test_two_servers(self):
        """Whoever comes second is told the number of the first, also that of one after a kill."""
        self.creates()
        before = sorted(os.listdir(self.store))
        for _ in range(2):
            server = self.takes_up("0:0:8")
            cause = f"store {self.store}: in use by process {server.pid}"
            self.refused(cause)
            for words in ["check"], ["export", "0:0"], ["import", "0:0"]:
                ended = ran(program("autoraid"), words[0], "--store", self.store, *words[1:])
                self.wants(ended, (1, "", f"{cause}\n"), f"`{words[0]}` of a store in use")
            ended = ran(program("autoraid"), "create", "--store", self.store)
            self.wants((ended.status, ended.error), (1, f"store {self.store}: a store is there\n"), "a creation")
            server.kill()
        server = self.takes_up("0:0:8")
        self.stops(server)
        self.wants(self.checks().status, 0, "a check afterwards")
        self.wants(sorted(os.listdir(self.store)), before, "the files of the folder")

    def is_opened_by(self, pid):
        """Whether a process has a file of the store open."""
        folder = f"/proc/{pid}/fd"
        return any(os.path.realpath(os.path.join(folder, name)).startswith(self.store) for name in os.listdir(folder))

    def test_a_server_beside_an_import(self):
        self.creates()
        line = [program("autoraid"), "import", "--store", self.store, "0:0"]
        running = self.starts(*line, stdin=subprocess.PIPE)
        # (a check that comes first would have the import refused)
        self.wants(waited(lambda: self.is_opened_by(running.pid), True), True, "a store that the import has opened")
        wanted = f"store {self.store}: in use by process {running.pid}\n"
        self.wants(self.checks().error, wanted, "a check beside an import")
        running.process.stdin.write("s" * SECTOR)
        running.process.stdin.close()
        self.wants(running.ended(), (0, "", ""), "the import")
        self.wants(self.checks().out.splitlines()[0], "unit 0 0 1", "the unit")

    def test_a_unit_of_another_length(self):
        self.creates()
        self.stops(self.takes_up("0:0:8", "1:0:9"))
        self.refused("unit 1:0:10 has 9 sectors in the store", "3:0:5", "0:0:8", "1:0:10")
        self.stops(self.takes_up("0:0:8", "1:0:9", "2:0:3"))
        wanted = ["unit 0 0 8", "unit 1 0 9", "unit 2 0 3"]
        self.wants(self.checks().out.splitlines()[:-1], wanted, "no unit of a refusal")

    def test_damage(self):
        """A byte that has decayed in the midst of the log is damage, with its place, and nothing is written."""
        self.creates()
        server = self.takes_up("0:0:64")
        host = self.host(server, 0)
        for lba in range(20):
            host.asks(forced_write(lba, 1), sector_of(lba))
        server.kill()
        path = os.path.join(self.store, "first.log")
        whole = self.bytes_of("first.log")
        with open(path, "r+b") as log:
            log.seek(len(whole) // 2)
            log.write(bytes([whole[len(whole) // 2] ^ 0x10]))
        damaged = self.bytes_of("first.log")
        ended = self.checks()
        self.wants(ended.status, 1, "a check of damage")
        self.holds("damaged at byte " in ended.error, "a place of damage", ended.error)
        self.refused(ended.error.rstrip("\n"))
        self.wants(self.bytes_of("first.log"), damaged, "the log after refusals")
        with open(path, "wb") as log:
            log.write(b"something else")
        self.refused(f"store {self.store}: its files hold no log")


class Images(Stored):
    def moves(self, subcommand, *words, image=b""):
        """What `export` or `import` has printed: status, bytes, and text on standard error."""
        line = [program("autoraid"), subcommand, "--store", self.store, *words]
        ended = subprocess.run(line, input=image, capture_output=True, timeout=PATIENCE, check=False)
        return ended.returncode, ended.stdout, ended.stderr.decode()

    def test_there_and_back(self):
        """An image becomes a unit, which a host reads and writes, and which is an image again."""
        self.creates("--geometry", "paper", "--extents", "8")
        image = random.Random(5).randbytes((3 * 2048 + 5) * SECTOR)
        self.wants(self.moves("import", "2:5", image=image), (0, b"", ""), "an image of 3 MiB and 5 sectors")
        self.wants(self.checks().out.splitlines()[0], "unit 2 5 6149", "the unit that was created")
        before = self.stamps()
        self.holds(self.moves("export", "2:5") == (0, image, ""), "the image of the unit", "another")
        self.wants(self.stamps(), before, "what an export has written to the store")
        server = self.takes_up()
        host = self.host(server, 2)
        read = host.reads(6000, 149, lun=5).data
        self.holds(read == image[6000 * SECTOR :], "the image that a host reads", "another")
        self.wants(host.writes(7, sector_of(9), lun=5).status, GOOD, "a WRITE")
        self.stops(server)
        wanted = image[: 7 * SECTOR] + sector_of(9) + image[8 * SECTOR :]
        self.holds(self.moves("export", "2:5")[1] == wanted, "the image after a WRITE", "another")
        self.wants(self.moves("import", "2:5", image=sector_of(3)), (0, b"", ""), "an image of one sector")
        self.holds(self.moves("export", "2:5")[1] == sector_of(3) + wanted[SECTOR:], "the rest stays", "it changed")

    def test_a_unit_that_was_resized(self):
        """What the unit has to report to its host first is no obstacle."""
        self.creates()
        server = self.takes_up("0:0:4")
        self.wants(server.answers_to("grow 0 0 8\n"), "ok\n", "grow")
        self.stops(server)
        self.wants(self.moves("export", "0:0"), (0, bytes(8 * SECTOR), ""), "the image of a resized unit")
        image = sector_of(1) * 8
        self.wants(self.moves("import", "0:0", image=image)[0], 0, "an image for it")
        self.wants(self.moves("export", "0:0")[1], image, "its image")

    def test_refused(self):
        """A refused image changes nothing, and one line says why."""
        self.creates()
        self.wants(self.moves("import", "0:0", image=sector_of(1) * 4)[0], 0, "an image")
        fault = f"store {self.store}: "
        for words, image, cause in (
            (("export", "0:1"), b"", "the unit isn't there"),
            (("import", "0:0"), bytes(5 * SECTOR), "the image has more than 4 sectors"),
            (("import", "0:0"), bytes(SECTOR + 1), "the image ends in a part of a sector"),
            (("import", "0:1"), b"", "the unit can't be created: M2 Size"),
            # (three rows of two blocks in each of 63 groups, without the two blocks of the unit that is there)
            (("import", "0:1"), bytes(4096 * SECTOR), "the unit can't be created: M3 NoRoom 376"),
        ):
            with self.subTest(words=words, cause=cause):
                self.wants(self.moves(*words, image=image), (1, b"", f"{fault}{cause}\n"), "what it says")
        self.wants(self.moves("export", "0:0")[1], sector_of(1) * 4, "the unit after refusals")
        server = self.takes_up()
        cause = f"in use by process {server.pid}"
        self.wants(self.moves("export", "0:0")[2], f"{fault}{cause}\n", "beside a server")
        self.stops(server)

    def test_kills(self):
        """A kill while an image is written leaves a front of it, and after the front what was there."""
        self.creates("--geometry", "paper", "--extents", "64")
        old, new = bytes(range(256)) * 2, bytes(reversed(range(256))) * 2
        count = 18 * 2048
        self.wants(self.moves("import", "0:0", image=old * count)[0], 0, "an image")
        for round_ in range(4):
            line = [program("autoraid"), "import", "--store", self.store, "0:0"]
            with subprocess.Popen(line, stdin=subprocess.PIPE, stderr=subprocess.DEVNULL) as running:
                running.stdin.write(new * count)
                running.stdin.close()
                time.sleep(0.05 * round_)
                running.kill()
            image = self.moves("export", "0:0")[1]
            front = image.count(new)
            self.holds(image == new * front + old * (count - front), "a front of the image", front)
            self.wants(self.moves("import", "0:0", image=old * count)[0], 0, "the old image")


class Shown(Stored):
    """What operators and HTTP clients are shown of a store."""

    STATES = ("sound", "degraded", "failing", "given_up")

    def watched(self, *words):
        """A server of a store, whose files can't grow beyond a limit that a case sets."""
        return self.takes_up(*words, doors=("operator", "http"), before=("env", "--ignore-signal=XFSZ"))

    def limits(self, server, most):
        resource.prlimit(server.pid, resource.RLIMIT_FSIZE, (most, resource.RLIM_INFINITY))

    def shows(self, server, state, *lines):
        """Looks at a store's state wherever it is shown."""
        self.wants(self.kept(server.operator()).asks("health"), ["whole", *lines], f"health with a store {state}")
        self.wants(server.status_json()["store"]["state"], state, "the state as JSON")
        said = [server.sample(f'autoraid_store_state{{state="{name}"}}') for name in self.STATES]
        self.wants(said, [str(int(name == state)) for name in self.STATES], "the state in metrics")
        self.wants(server.get("/healthz/whole")[::2], (200, "whole\n"), "the health of the disks")

    def numbers(self, server):
        return [int(server.sample(f"autoraid_store_{name}")) for name in ("log_bytes", "commits_total")]

    def test_numbers(self):
        """Each WRITE that waits for its commit is one, and makes the log longer."""
        self.creates()
        server = self.watched("0:0:64", "--commit-every", "3600")
        host, before = self.host(server, 0), self.numbers(server)
        for lba in range(3):
            host.asks(forced_write(lba, 1), sector_of(lba))
        log_bytes, commits = self.numbers(server)
        self.wants(commits, before[1] + 3, "commits")
        self.holds(log_bytes >= before[0] + 3 * SECTOR, f"a log longer than {before[0]} by what was written", log_bytes)
        store = server.status_json()["store"]
        self.wants(list(store), ["state", "log_bytes", "waiting_bytes", "commits", "checkpoints"], "a store as JSON")
        wanted = [log_bytes, 0, commits, int(server.sample("autoraid_store_checkpoints_total"))]
        self.wants(list(store.values())[1:], wanted, "the same as JSON")
        host.writes(7, sector_of(7))
        waiting = server.status_json()["store"]["waiting_bytes"]
        self.holds(waiting >= SECTOR, "a record that waits", waiting)
        text = server.get("/metrics")[2]
        self.wants([line for line in text.splitlines() if not SAMPLE.fullmatch(line)], [], "lines of another form")
        self.shows(server, "sound")

    def test_a_store_that_fails(self):
        """Without room commits fail, and with room they go on."""
        self.creates()
        server = self.watched("0:0:64")
        host = self.host(server, 0)
        self.shows(server, "sound")
        self.limits(server, 4096)
        for lba in range(16):
            reply = host.asks(forced_write(lba, 1), sector_of(lba))
        self.wants((reply.status, reply.sense[2]), (CHECK, 4), "a WRITE without room")
        self.shows(server, "failing", "store failing")
        self.wants(server.answers_to("room\nhealth\n").splitlines()[1:], ["whole", "store failing"], "two questions")
        self.limits(server, resource.RLIM_INFINITY)
        self.wants(host.asks(forced_write(0, 1), sector_of(5)).status, GOOD, "a WRITE with room")
        self.shows(server, "sound")
        host.close()
        self.stops(server, error=None)


class Full(Stored):
    SECTORS, COUNT = 1024, 64

    def mounts(self, *words):
        """Mounts a small file system for the store, and answers whether the system lets it."""
        disk = os.path.join(self.room, "disk")
        os.mkdir(disk)
        if os.geteuid() or ran("mount", *words, disk).status:
            return False
        self.addCleanup(ran, "umount", "-l", disk)
        self.store, self.ballast = os.path.join(disk, "store"), os.path.join(disk, "ballast")
        return True

    def leaves_room(self, count):
        """Fills the disk but for `count` bytes."""
        with open(self.ballast, "xb") as file:
            found = os.statvfs(self.ballast)
            os.posix_fallocate(file.fileno(), 0, found.f_bfree * found.f_frsize - count)

    def writes(self, host, written):
        """The answer to a WRITE that is to last."""
        lba = len(written) * self.COUNT % self.SECTORS
        written.append(lba)
        return host.asks(forced_write(lba, self.COUNT), sector_of(len(written)) * self.COUNT)

    def writes_until_full(self, host, written, when):
        """Writes until there is no room, and returns the number of the last WRITE that lasts."""
        before = len(written)
        while (reply := self.writes(host, written)).status == GOOD and len(written) < before + 100:
            pass
        said = reply.status, reply.sense[2:3], reply.sense[12:14]
        self.wants(said, (CHECK, b"\4", b"\x44\0"), f"a WRITE without room {when}")
        self.holds(len(written) > before + 2, f"some WRITEs before the disk is full {when}", len(written) - before)
        reply = host.reads(written[-2], self.COUNT)
        wanted = GOOD, sector_of(len(written) - 1) * self.COUNT
        self.wants((reply.status, reply.data), wanted, f"a READ without room {when}")
        return len(written) - 1

    def looks(self, server, written, lasting, when):
        """Compares the unit with a front of what was written, which has what was to last. Returns a host."""
        host = self.host(server, 0)
        data = host.reads(0, self.SECTORS).data
        last = max(struct.unpack(">Q", data[at : at + 8])[0] for at in range(0, len(data), SECTOR))
        wanted = [0] * self.SECTORS
        for number, lba in enumerate(written[:last], 1):
            wanted[lba : lba + self.COUNT] = [number] * self.COUNT
        self.holds(data == b"".join(map(sector_of, wanted)), f"{when}: the first {last} WRITEs", "others")
        self.holds(last >= lasting, f"{when}: WRITE {lasting} lasts", last)
        del written[last:]
        return host

    def fills(self):
        """A disk is full, has room again, is full at a kill, at a stop, and for the new log of a stop."""
        self.creates("--extents", "128")
        written, unit = [], f"0:0:{self.SECTORS}"
        server = self.takes_up(unit)
        host = self.host(server, 0)
        self.leaves_room(512 << 10)
        self.writes_until_full(host, written, "at first")
        os.remove(self.ballast)
        self.wants(self.writes(host, written).status, GOOD, "a WRITE once there is room")
        self.leaves_room(512 << 10)
        lasting = self.writes_until_full(host, written, "again")
        # (a kill would cut off what the log's thread has yet to write)
        said = server.outputs[1].line(20)
        self.holds("the store can't be written: " in said, "an ERROR line", said)
        server.kill()
        os.remove(self.ballast)
        server = self.takes_up(unit)
        host = self.looks(server, written, lasting, "after a kill")
        self.wants(self.writes(host, written).status, GOOD, "a WRITE after a kill")
        self.leaves_room(512 << 10)
        lasting = self.writes_until_full(host, written, "at a stop")
        self.wants(server.answers_to("stop\n"), "fault: store failed\n", "a stop without room")
        self.wants(server.ended().status, 4, "the status after a stop without room")
        os.remove(self.ballast)
        before, server = self.generation(), self.takes_up(unit)
        host = self.looks(server, written, lasting, "after a stop")
        self.wants(self.writes(host, written).status, GOOD, "a WRITE after a stop")
        self.leaves_room(384 << 10)
        self.wants(server.answers_to("stop\n"), "stopped\n", "a stop without room for a new log")
        ended = self.ends(server, error=None)
        os.remove(self.ballast)
        is_said = f"[WARN  autoraid] store {self.store}: " in untimed(ended.error)
        self.wants(is_said, self.generation() == before, "whether a line says that the old log stays")
        before, server = self.generation(), self.takes_up(unit)
        self.looks(server, written, len(written), "after a stop without a new log")
        self.stops(server)
        self.holds(self.generation() > before, f"a generation after {before}", self.generation())

    def generation(self):
        return int(self.checks().out.split()[-1])

    def test_a_small_memory(self):
        if self.mounts("-t", "tmpfs", "-o", "size=8m,mode=700", "none"):
            self.fills()

    def test_a_small_disk(self):
        image = os.path.join(self.room, "image")
        with open(image, "xb") as file:
            file.truncate(12 << 20)
        if not shutil.which("mkfs.ext4") or ran("mkfs.ext4", "-q", "-m", "0", image).status:
            return
        if self.mounts("-o", "loop", image):
            self.fills()

    def test_a_full_disk(self):
        """No WRITE is acknowledged that doesn't last, reads go on, and a start with room goes on."""
        self.creates()
        limits = {resource.RLIMIT_FSIZE: 40_000}
        server = self.takes_up("0:0:64", "1:0:8", limits=limits, before=("env", "--ignore-signal=XFSZ"))
        host, lasting = self.host(server, 0), 0
        for number in range(1, 200):
            reply = host.asks(forced_write(number % 64, 1), sector_of(number))
            if reply.status != GOOD:
                break
            lasting = number
        self.wants((reply.status, reply.sense[2], reply.sense[12:14]), (CHECK, 4, b"\x44\x00"), "a WRITE without room")
        self.holds(20 < lasting < 190, "some WRITEs before the disk is full", lasting)
        self.wants(host.reads(lasting % 64, 1).data, sector_of(lasting), "a READ goes on")
        operator = self.kept(server.operator())
        self.wants(operator.asks("grow 1 0 16"), ["fault: store failed"], "an extension without room")
        reply = self.host(server, 1).asks(bytes(6))
        self.wants((reply.status, reply.sense[2]), (CHECK, 6), "a pending attention is reported all the same")
        self.wants(server.answers_to("make 3 3 8\n"), "fault: store failed\n", "an order without room")
        self.wants(server.answers_to("stop\n"), "fault: store failed\n", "a stop without room")
        ended = server.ended()
        self.wants(ended.status, 4, "the server's status")
        self.holds("the store can't be written" in ended.error, "an ERROR line", ended.error)
        host = self.host(self.takes_up("0:0:64"), 0)
        data = host.reads(0, 64).data
        found = [struct.unpack(">Q", data[at : at + 8])[0] for at in range(0, len(data), SECTOR)]
        self.holds(max(found) >= lasting, "what was acknowledged", (max(found), lasting))
        self.wants(host.asks(forced_write(0, 1), sector_of(500)).status, GOOD, "a WRITE with room")
