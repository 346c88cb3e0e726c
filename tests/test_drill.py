"""A served array is operated while four hosts compare all that they read with what they wrote.

Disks fail in the middle of an access, are replaced and rebuilt, disks are added and balanced, units grow, and others
are created and deleted beside them. No host may read a wrong byte, and with one disk missing at a time none may see a
failure. Then two disks fail at once: each reply is right, or says that the data are lost. And while one disk is missing
at a time, attackers at all doors let no host wait.

    DRILL_SEED=7 DRILL_MINUTES=60 python3 -m unittest -k drill.Drill
    DRILL_SEED=7 DRILL_MINUTES=60 python3 -m unittest -k drill.AttackedDrill

repeat the drill, and the one beside attackers, with one seed after another until this many minutes have passed, with a
line for each.
"""
import contextlib
import os
import random
import re
import tempfile
import threading
import time

from tests.attackers import Attackers
from tests.harness import CHECK, GOOD, HOSTS, PATIENCE, Case, Reply, free_port, program, waited

# Units of each host; the array.
UNITS, DISKS, CACHE = 2, 4, 16
# Requests of all hosts, at least, while disks fail one after another, also beside attackers where no minutes are asked
# for; of each while two fail at once.
REQUESTS, REQUESTS_ATTACKED, REQUESTS_LOST = 200_000, 20_000, 6_000
SEED, MINUTES = int(os.environ.get("DRILL_SEED", 1)), float(os.environ.get("DRILL_MINUTES", 0))


def listening(pid):
    """The addresses and ports at which a process listens, by the kernel's tables."""
    links = [os.path.join(f"/proc/{pid}/fd", name) for name in os.listdir(f"/proc/{pid}/fd")]
    inodes = {match[1] for link in links if (match := re.fullmatch(r"socket:\[(\d+)\]", os.readlink(link)))}
    for table in ["tcp", "tcp6", "udp", "udp6"]:
        with open(f"/proc/{pid}/net/{table}", encoding="ascii") as rows:
            for row in list(rows)[1:]:
                fields = row.split()
                # A socket that listens, of TCP; of UDP any.
                if fields[9] in inodes and (fields[3] == "0A" or table.startswith("udp")):
                    address, port = fields[1].split(":")
                    yield address, int(port, 16)


class Load:
    """Hosts that verify, in the background."""

    def __init__(self, case, server, seed, *words, hosts=HOSTS):
        plan = ["--hosts", hosts, "--units", UNITS, "--sectors", case.sectors, "--seed", seed]
        self.case = case
        self.running = case.starts(program("bench_load"), "--verify", "--port", server.port, *plan, *words)

    def is_running(self):
        return self.running.is_running()

    def ends(self):
        """Looks that no host found a difference: what they counted, by name."""
        ended = self.running.ended()
        self.case.wants((ended.status, ended.error), (0, ""), f"the end of the hosts, who said {ended.out[-2000:]}")
        words = ended.out.splitlines()[-1].split() if ended.out else []
        counts = dict(zip(words[::2], map(int, words[1::2])))
        self.case.wants((counts.get("differences"), counts.get("busy")), (0, 0), "differences, and replies BUSY")
        self.case.holds(counts.get("compared", 0) > 0, "something was compared", counts)
        return counts


class Probe:
    """A host that reads from its units every 20 ms, and compares; how long it waited for an answer at most."""

    PAUSE = 0.02

    def __init__(self, case, server, number):
        self.host, self.drawn = case.kept(server.log_in(number)), random.Random(number)
        self.plain = self.drawn.randbytes(512 * case.sectors)
        for lun in range(UNITS):
            case.wants(self.host.writes(0, self.plain, lun)[1:], (GOOD, b"", b""), "a WRITE before the others")
        self.longest, self.attentions, self.fault = 0, 0, None
        self.thread = threading.Thread(target=self.run, daemon=True)
        self.thread.start()

    def run(self):
        # (the service ends the session)
        with contextlib.suppress(OSError):
            while self.fault is None and self.reads():
                time.sleep(self.PAUSE)

    def reads(self):
        """Whether one READ is answered as it is to be; its unit may report once that it has grown."""
        at, begun = self.drawn.randrange(len(self.plain) // 512 - 1), time.monotonic()
        said = self.host.reads(at, 2, self.drawn.randrange(UNITS))
        if said is None:
            return False
        self.longest = max(self.longest, time.monotonic() - begun)
        if said.status == CHECK and said.sense[2:3] == b"\6":
            self.attentions += 1
        elif said != Reply(self.host.tag, GOOD, b"", self.plain[512 * at : 512 * at + 1024]):
            self.fault = said
        return True


class Progress:
    """For how long a host's count of commands didn't grow at most, as an operator sees it ten times a second, of the
    first hosts, who ask without pause."""

    def __init__(self, case, server, hosts):
        self.operator, self.hosts, self.longest = case.kept(server.operator()), hosts, 0
        # (one who has asked stays, whoever comes)
        self.operator.asks("health")
        self.thread = threading.Thread(target=self.run, daemon=True)
        self.thread.start()

    def run(self):
        since = {}
        with contextlib.suppress(OSError):
            while True:
                asked, lines = time.monotonic(), self.operator.asks("sessions")
                # (lines are in order of hosts)
                for host, line in enumerate(lines[: self.hosts]):
                    frames = line.split()[3]
                    if since.get(host, (None,))[0] != frames:
                        since[host] = frames, time.monotonic()
                    self.longest = max(self.longest, asked - since[host][1])
                time.sleep(0.1)


class DrillCase(Case):
    seconds = 240
    # The hosts that verify, the first ones, and the disks that are added; the size of units and disks.
    hosts, added = HOSTS, 2
    sectors, extents = 512, 448

    def served(self, audit, doors=("operator",)):
        options = ["--disks", DISKS, "--extents", self.extents, "--cache", CACHE]
        units = [f"{host}:{lun}:{self.sectors}" for host in range(HOSTS) for lun in range(UNITS)]
        return self.serve(*options, *units, audit=audit, doors=doors)

    def begin_beside(self, server, seed, spare):
        """Begins what goes on beside the hosts that verify and the operator; the disk `spare` isn't touched."""

    def add_beside(self):
        """The same once no disk can be added any more."""

    def is_missing(self, _operator):
        """Whether something of it hasn't happened yet."""
        return False

    def stop(self, operator):
        self.wants(operator.answer_to(b"stop\n"), "stopped\n", "a stop")

    def end_beside(self, report):
        """Ends it, and looks at the report."""

    def orders(self, operator, line, *wanted):
        self.wants(operator.asks(line), list(wanted or ["ok"]), line)

    def waits(self, operator, line, wanted):
        self.wants(operator.waits(line, [wanted]), [wanted], line)

    def ends_with(self, server, requests, **how):
        """Looks that a server has ended well, with these commands of the hosts that verify in its report, and returns
        those of each host."""
        ended = self.ends(server, **how)
        lines = enumerate(ended.out.splitlines()[:HOSTS])
        counts = [re.fullmatch(rf"host {host} commands (\d+)", line) for host, line in lines]
        self.holds(len(counts) == HOSTS and all(counts), "a report with a line for each host", ended.out)
        report = [int(count[1]) for count in counts]
        self.holds(sum(report[: self.hosts]) in requests, f"{requests} commands in the report", report)
        return report

    def grow(self, operator, sectors, drawn, host):
        """Extends a unit of a host by a few sectors."""
        lun = drawn.randrange(UNITS)
        sectors[host, lun] += drawn.randrange(1, self.sectors * 25 // 64)
        self.orders(operator, f"grow {host} {lun} {sectors[host, lun]}")

    def make_beside(self, operator, drawn):
        """Creates a unit that no host uses, and deletes it."""
        host, lun = drawn.randrange(HOSTS), drawn.randrange(UNITS, 8)
        sectors = drawn.randrange(1, 40)
        self.orders(operator, f"make {host} {lun} {sectors}")
        self.orders(operator, f"make {host} {lun} {sectors}", "refused M1 Exists")
        self.orders(operator, f"levels {host} {lun}", "-" * ((sectors + 1) // 2))
        self.orders(operator, f"drop {host} {lun}")
        self.orders(operator, f"drop {host} {lun}", "refused M5 Absent")

    def lose(self, operator, disk, accesses):
        """Has a disk fail in the middle of an access."""
        self.orders(operator, f"fail {disk} {accesses}")
        self.waits(operator, "health", f"out {disk}")

    def rebuild(self, operator, disk):
        """Puts a new disk in the place of one that is out, and waits until it is rebuilt."""
        self.orders(operator, f"replace {disk}")
        self.waits(operator, "health", "whole")

    def is_balanced(self, operator, disks):
        """Waits until nothing is left to balance, and looks that each disk and each of its extents is used."""
        self.waits(operator, "balance", "idle")
        self.wants(operator.asks("picture")[0], f"{disks} disks (columns) of {self.extents} extents (lines)", "picture")
        self.wants(len(operator.asks("groups")), disks * self.extents // 4, "groups")

    def one_at_a_time(self, seed, audit, requests=REQUESTS, doors=("operator",)):
        """Everything that an operator does while no host may notice. Returns the number of requests."""
        drawn, server = random.Random(seed), self.served(audit, doors)
        sectors = {(host, lun): self.sectors for host in range(HOSTS) for lun in range(UNITS)}
        operator = self.kept(server.operator())
        wanted = [("0100007F", port) for port in (server.port, *server.doors.values()) if isinstance(port, int)]
        self.wants(sorted(listening(server.pid)), sorted(wanted), "where it listens")
        load = Load(self, server, seed, "--until-closed", hosts=self.hosts)
        seats = [f"host {host}" for host in range(self.hosts)]
        self.wants(waited(lambda: [said[:6] for said in operator.asks("sessions")], seats), seats, "sessions at first")
        first, second, spare = drawn.sample(range(DISKS), 3)
        self.begin_beside(server, seed, spare)
        for host in range(HOSTS):
            self.grow(operator, sectors, drawn, host)
        self.lose(operator, first, drawn.randrange(2000))
        self.make_beside(operator, drawn)
        self.rebuild(operator, first)
        self.lose(operator, second, drawn.randrange(2000))
        # (a new disk fails while it is rebuilt)
        self.orders(operator, f"replace {second}")
        self.lose(operator, second, drawn.randrange(self.extents))
        self.rebuild(operator, second)
        for _ in range(self.added):
            self.orders(operator, "add")
        for host in range(2):
            self.grow(operator, sectors, drawn, host)
        self.make_beside(operator, drawn)
        self.is_balanced(operator, DISKS + self.added)
        self.add_beside()
        self.wants([said[:6] for said in operator.asks("sessions")][: self.hosts], seats, "sessions")
        while load.is_running() and (operator.commands(self.hosts) < requests or self.is_missing(operator)):
            self.make_beside(operator, drawn)
            self.orders(operator, f"out {first}")
            self.rebuild(operator, first)
        self.orders(operator, "health", "whole")
        self.wants(load.is_running(), True, "whether the hosts go on until the operator ends")
        self.stop(operator)
        counts = load.ends()
        said = counts.get("attentions"), counts.get("broken")
        self.wants(said, (self.hosts + 2, 0), "replies UNIT ATTENTION, and 04/44/00")
        done = counts["requests"]
        self.holds(done >= requests, f"at least {requests} requests", done)
        # (what a host sent last may have been read no more)
        self.end_beside(self.ends_with(server, range(done - self.hosts, done + 1)))
        return done


class Drill(DrillCase):
    def two_at_once(self, seed, audit):
        """Two disks fail before either is replaced: the data are lost, and every reply says so or is right."""
        drawn, server = random.Random(seed), self.served(audit)
        operator = self.kept(server.operator())
        load = Load(self, server, seed, "--requests", REQUESTS_LOST, "--may-break")
        for disk in drawn.sample(range(DISKS), 2):
            self.orders(operator, f"fail {disk} {drawn.randrange(3000)}")
        self.waits(operator, "health", "broken")
        counts = load.ends()
        self.holds(counts["broken"] > 0, "replies 04/44/00 once two disks have failed", counts)
        self.orders(operator, "add", "refused E6 Broken")
        self.orders(operator, "make 0 7 8", "refused M6 Broken")
        server.ending = "closed, data lost"
        self.wants(server.answers_to("stop\n"), "stopped\n", "a stop")
        self.ends_with(server, range(counts["requests"] + 1), error="data lost\n", status=3)
        return counts["requests"]

    def stopped_under_load(self, seed, audit):
        """The array is stopped while hosts send without pause: each reply is right, and the history has them all."""
        server = self.served(audit)
        load = Load(self, server, seed, "--until-closed")
        time.sleep(1)
        begun = time.monotonic()
        self.wants(server.answers_to("stop\n"), "stopped\n", "a stop")
        self.holds(time.monotonic() - begun < PATIENCE / 2, "a stop takes less than 30 s", time.monotonic() - begun)
        requests = load.ends()["requests"]
        # (what a host sent last may have been read no more)
        self.ends_with(server, range(requests - HOSTS, requests + 1))
        return requests

    def test_one_disk_at_a_time(self):
        self.one_at_a_time(SEED, "full")

    def test_two_disks_at_once(self):
        self.two_at_once(SEED, "off")

    def test_stop_under_verifying_hosts(self):
        self.stopped_under_load(SEED, "off")

    def test_seed_after_seed(self):
        """All of it, in turn with an audit and without one, for as long as is asked for."""
        begun, seed = time.monotonic(), SEED
        while (passed := time.monotonic() - begun) < 60 * MINUTES:
            self.setUp()
            audits = ("full", "off") if seed % 2 else ("off", "full")
            requests = self.one_at_a_time(seed, audits[0])
            requests += self.two_at_once(seed, audits[1]) + self.stopped_under_load(seed, audits[1])
            print(f"seed {seed}: {requests} requests, {passed / 60:.1f} minutes so far", flush=True)
            seed += 1
        self.doCleanups()


class AttackedDrill(DrillCase):
    """The drill with one disk missing at a time, beside attackers at all doors, and two hosts that aren't verified: one
    reads all the while, and the other is the attackers' own."""

    seconds, hosts, added = 480, HOSTS - 2, 8
    # (the history keeps the data of all commands, and more disks take longer to balance)
    sectors, extents = 256, 224
    # Commands of those who verify at most, for attacks that haven't happened: a session ends after as many.
    MOST = 1_000_000
    # Seconds that a command may take, unless one takes as long without attackers.
    SLOW = 1

    def begin_beside(self, server, seed, spare):
        self.probe, self.progress = Probe(self, server, self.hosts), Progress(self, server, self.hosts)
        if self.with_attackers:
            orders = [("make 0 0 8", "refused M1 Exists"), ("make 0 8 8", "refused M7 BadLun")]
            orders += [("grow 1 1 1", "refused M2 Size"), ("drop 0 8", "refused M5 Absent")]
            orders += [(f"replace {spare}", "refused E3 NotOut"), ("replace 12", "refused E4 NoSuchDisk")]
            orders += [("out 12", "refused E4 NoSuchDisk"), ("fail 12 0", "refused E4 NoSuchDisk")]
            self.attackers = Attackers(server, seed, HOSTS - 1, orders)
            self.addCleanup(self.attackers.is_over.set)

    def add_beside(self):
        if self.with_attackers:
            self.attackers.orders("a thirteenth disk", [("add", "refused E1 TooManyDisks")])

    def is_missing(self, operator):
        return self.with_attackers and self.attackers.missing() and operator.commands(self.hosts) < self.MOST

    def stop(self, operator):
        if self.with_attackers:
            self.attackers.is_ending = True
        super().stop(operator)

    def end_beside(self, report):
        self.probe.thread.join(PATIENCE)
        self.wants((self.probe.fault, self.probe.attentions), (None, 1), "a wrong answer to the host that reads")
        sent = self.probe.host.tag
        self.holds(report[self.hosts] in (sent - 1, sent), f"{sent} commands of it in the report", report)
        if self.with_attackers:
            self.attackers.end(self)

    def slowest(self, seed, with_attackers, requests):
        """The longest that a host waited for a command, and the number of requests of those that verify."""
        self.setUp()
        self.with_attackers = with_attackers
        folder = tempfile.TemporaryDirectory()
        self.addCleanup(folder.cleanup)
        # (the operators' door is a port or a Unix socket)
        operator = free_port() if seed % 2 else os.path.join(folder.name, "operators")
        doors = {"operator": operator, "http": free_port(), "iscsi": free_port()}
        done = self.one_at_a_time(seed, "full", requests, doors)
        return max(self.probe.longest, self.progress.longest), done

    def beside_attackers(self, seed, requests):
        """Looks that no command takes longer than a second, unless one does without attackers. What was seen."""
        seen, is_well = [], False
        # (again where it may be by other programs of the machine)
        while not is_well and len(seen) < 3:
            slowest, done = self.slowest(seed, True, requests)
            seen.append(f"{slowest:.2f} s")
            is_well = slowest <= self.SLOW
            if not is_well:
                without, _ = self.slowest(seed, False, requests)
                seen[-1] += f" (without attackers {without:.2f} s)"
                is_well = without > self.SLOW
        self.holds(is_well, f"no command above {self.SLOW} s by attackers alone, in three runs", seen)
        attacks = sum(self.attackers.happened.values())
        return f"{done} requests, {attacks} attacks, the slowest command {', '.join(seen)}"

    def test_attackers_at_all_doors(self):
        """Once, with units and disks of half the size."""
        self.sectors, self.extents = 128, 112
        self.beside_attackers(SEED, REQUESTS_ATTACKED)

    def test_attackers_seed_after_seed(self):
        """The same for as long as is asked for, operators by a port and by a Unix socket in turn."""
        begun, seed = time.monotonic(), SEED
        while (passed := time.monotonic() - begun) < 60 * MINUTES:
            said = self.beside_attackers(seed, REQUESTS * self.hosts // HOSTS)
            print(f"seed {seed}: {said}, {passed / 60:.1f} minutes so far", flush=True)
            seed += 1
            self.doCleanups()
