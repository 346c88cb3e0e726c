"""The metrics of a served array: what hosts did by operation and status, and what the array counts of puts and its
cache.

They are checked by promtool (Debian's prometheus) where that is installed, and else by their form alone.
"""
import re
import shutil

from tests.harness import GOOD, TARGET, TEST_UNIT_READY, Case, Initiator, program, ran, read_10, rest_of, waited
from tests.harness import write_10

# A line of the metrics: a comment, or a sample.
LABELS = r'(\{[a-z_]+="[A-Za-z0-9_.+]+"(,[a-z_]+="[A-Za-z0-9_.+]+")*\})?'
SAMPLE = re.compile(rf"# (HELP|TYPE) autoraid_[a-z_]+ .+|autoraid_[a-z_]+{LABELS} \d+(\.\d+)?")
# The bounds of the buckets of a histogram, in seconds.
BOUNDS = [0.00005, 0.0001, 0.00025, 0.0005, 0.001, 0.0025, 0.01, 0.05, 0.25, 1.0, 10.0]
WRITE, READ = "write 0 0 0 {0} AA\n", "read 0 0 0 {0}\n"


class Metrics(Case):
    def watched(self, *words, audit="full"):
        return self.serve(*words, doors=("operator", "http"), audit=audit)

    def numbers(self, audit, entries):
        """What hosts did, by operation and status."""
        server = self.watched("0:0:24", "1:0:8", audit=audit)
        server.client(0, "tur 0 0\nwrite 0 0 0 2 AA\nread 0 0 0 3\nread 0 0 99 1\nread 0 1 0 1\n")
        wanted = {
            'host_commands_total{host="0",operation="test_unit_ready",status="good"}': "1",
            'host_commands_total{host="0",operation="write",status="good"}': "1",
            'host_commands_total{host="0",operation="read",status="good"}': "1",
            'host_commands_total{host="0",operation="read",status="check_condition"}': "2",
            'host_commands_total{host="1",operation="read",status="good"}': "0",
            'host_read_bytes_total{host="0"}': "1536",
            'host_written_bytes_total{host="0"}': "1024",
            "disks": "4",
            "disk_extents": "4",
            "block_bytes": "1024",
            "history_entries": entries,
        }
        said = {name: server.sample(f"autoraid_{name}") for name in wanted}
        self.wants(said, wanted, f"metrics with --audit {audit}")
        self.wants("autoraid_store" in server.get("/metrics")[2], False, "a store in metrics of an array without one")
        counts = server.status_json()["hosts"][0]
        self.wants((counts["commands"], counts["read_bytes"]), (5, 1536), "host 0 as JSON")
        self.has_form(server.get("/metrics")[2])
        self.stops(server, [5, 0, 0, 0])

    def has_form(self, text):
        self.wants([line for line in text.splitlines() if not SAMPLE.fullmatch(line)], [], "lines of another form")
        if shutil.which("promtool"):
            done = ran("promtool", "check", "metrics", text=text)
            self.wants((done.status, done.out + done.error), (0, ""), "promtool")

    def test_numbers(self):
        # (two units, and the commands of the client)
        self.numbers("full", "7")

    def test_numbers_without_an_audit(self):
        self.numbers("off", "0")

    def counters(self, server):
        """What the array has counted, from promotions to discards; and the number of cached blocks."""
        totals = "promotions", "squeezes", "cache_hits", "destages", "discards"
        names = [f"{name}_total" for name in totals] + ["cached_blocks"]
        return [int(server.sample(f"autoraid_{name}") or -1) for name in names]

    def test_promotions(self):
        """A block is written, demoted, and promoted as it is written again."""
        server = self.watched("--extents", "16", "0:0:8")
        server.client(0, WRITE.format(2))
        moved = server.answers_to("demote\n")
        self.wants(self.counters(server), [0, 0, 0, 0, 0, 0], f"counters once demoted ({moved})")
        server.client(0, 2 * WRITE.format(2))
        self.wants(self.counters(server), [1, 0, 0, 0, 0, 0], "counters once promoted")
        self.stops(server, [3, 0, 0, 0])

    def test_squeezes(self):
        """Of 18 blocks the 13th, 15th and 17th squeeze a group each; in one command, without maintenance between."""
        server = self.watched("0:0:36")
        server.client(0, WRITE.format(36))
        self.wants(self.counters(server)[1], 3, "squeezes")
        self.stops(server, [1, 0, 0, 0])

    def test_cache(self):
        """50 times 6 blocks by a cache of 8; meanwhile maintenance destages, so that not each READ is a hit."""
        server = self.watched("--cache", "8", "--extents", "16", "0:0:12")
        server.client(0, 50 * (WRITE.format(12) + READ.format(12)))
        self.wants(waited(lambda: self.counters(server)[5], 0), 0, "cached blocks in the end")
        said = self.counters(server)
        is_right = said[:2] == [0, 0] and 0 < said[2] <= 300 and 6 <= said[3] <= 300
        self.holds(is_right, "no promotion, no squeeze, 1 to 300 hits, 6 to 300 destages", said)
        status = server.status_json()
        self.wants([*status["counters"].values(), status["cached_blocks"]], said, "the same as JSON")
        self.stops(server, [100, 0, 0, 0])

    def test_version(self):
        """The version of the program, which `--version` prints."""
        server, version = self.watched("0:0:8"), ran(program("autoraid"), "--version").out.split()[-1]
        said = server.sample(f'autoraid_build_info{{version="{version}"}}'), server.status_json()["version"]
        self.wants(said, ("1", version), "the version in metrics and as JSON")
        self.has_form(server.get("/metrics")[2])
        self.stops(server)

    def units(self, server):
        """The bytes of each unit in metrics, and its sectors as JSON."""
        sample = re.compile(r'^autoraid_unit_bytes{host="(\d)",lun="(\d)"} (\d+)$', re.MULTILINE)
        found = sample.findall(server.get("/metrics")[2])
        listed = enumerate(server.status_json()["unit_sectors"])
        sectors = {(host, lun): unit for host, units in listed for lun, unit in enumerate(units) if unit is not None}
        return {(int(host), int(lun)): int(size) for host, lun, size in found}, sectors

    def test_units(self):
        """Units are made, grown and dropped; a sector has 512 bytes."""
        server = self.watched("--extents", "16", "0:0:24", "1:7:8")
        self.wants(self.units(server), ({(0, 0): 12288, (1, 7): 4096}, {(0, 0): 24, (1, 7): 8}), "two units")
        server.answers_to("grow 0 0 26\ndrop 1 7\nmake 3 1 2\n")
        self.wants(self.units(server), ({(0, 0): 13312, (3, 1): 1024}, {(0, 0): 26, (3, 1): 2}), "once changed")
        said = server.sample("autoraid_disk_bytes")
        self.wants(said, str(16 * 2 * 1024), "the bytes of a disk: its extents, of two blocks of 1 KiB each")
        self.stops(server)

    def disks(self, server):
        """The accesses and the errors of each disk, in metrics and as JSON."""
        text, listed, names = server.get("/metrics")[2], server.status_json()["disk_counters"], ("accesses", "errors")
        found = [re.findall(rf'^autoraid_disk_{name}_total{{disk="\d"}} (\d+)$', text, re.MULTILINE) for name in names]
        counts = [[int(value) for value in values] for values in found]
        return counts, [[disk[name] for disk in listed] for name in names]

    def counted(self, server):
        """The same, once maintenance has come to rest."""
        said = waited(lambda: len(set(map(str, self.disks(server)))), 1)
        self.wants(said, 1, "how many differ, of the counts in metrics and as JSON")
        return self.disks(server)[0]

    def test_disks(self):
        """Disks that nobody accesses, then a write to mirrored blocks, then a disk whose next access fails."""
        server = self.watched("0:0:24")
        self.wants(self.counted(server), [[0] * 4] * 2, "disks that are new")
        server.client(0, WRITE.format(24))
        said = self.counted(server)
        self.holds(sum(said[0]) >= 24 and said[1] == [0] * 4, "12 blocks are written twice at least", said)
        server.answers_to("fail 2 0\n")
        server.client(0, WRITE.format(24))
        errors = self.counted(server)[1]
        self.holds(errors[2] >= 1 and errors[:2] + errors[3:] == [0] * 3, "errors of disk 2 alone", errors)
        self.wants(server.answers_to("replace 2\n"), "ok\n", "a new disk")
        self.wants(self.counted(server)[1], errors, "the errors of all disks that had these numbers")
        line = server.answers_to("disks\n").splitlines()[2]
        self.wants(line.split()[8:10], ["errors", "0"], "those of the new disk alone")
        self.stops(server, [2, 0, 0, 0], error=None)

    def test_refused_logins(self):
        """An initiator asks for a target that there isn't, and a fifth operator comes."""
        server = self.serve("0:0:8", doors=("operator", "http", "iscsi"))
        self.wants(server.status_json()["refused_logins"], {"iscsi": 0, "operators": 0}, "before any login")
        said = self.kept(Initiator(server.iscsi_port)).log_in("InitiatorName=iqn.x", f"TargetName={TARGET}9")
        self.holds(said.login_status != b"\0\0", "a login at an unknown target is refused", said)
        iscsi, operators = (f'autoraid_refused_logins_total{{door="{door}"}}' for door in ("iscsi", "operators"))
        self.wants(waited(lambda: server.sample(iscsi), "1"), "1", "refused logins over iSCSI")
        held = [self.kept(server.operator()) for _ in range(4)]
        said = [operator.answer_to(b"health\n") for operator in held]
        self.wants(said, ["whole\n"] * 4, "four operators")
        said = rest_of(self.kept(server.operator()).link)
        self.wants((said, server.sample(operators)), (b"fault: too many operators\n", "1"), "a fifth operator")
        self.wants(server.status_json()["refused_logins"], {"iscsi": 1, "operators": 1}, "the same as JSON")
        self.wants(held[0].answer_to(b"stop\n"), "stopped\n", "stop")
        self.ends(server, error=None)

    def test_samples(self):
        """What hosts did lately, by spells of five seconds: one in which a host worked, then one in which none did."""
        server = self.serve("0:0:8", doors=("operator", "http", "iscsi"))
        self.wants(server.status_json()["samples"], [], "before any spell has ended")
        host = self.kept(server.initiator(0))
        self.wants(host.asks(TEST_UNIT_READY)[1].status, 2, "the first command")
        for _ in range(3):
            self.wants(host.asks(read_10(0, 2), flags=0xC1, expected=1024)[1].status, 0, "a READ")
        self.wants(waited(lambda: len(server.status_json()["samples"]), 2), 2, "samples after ten seconds")
        status = server.status_json()
        last, first = status["samples"]
        spells = first["spell"], last["spell"], last["seconds"] - first["seconds"]
        self.holds(min(spells) >= 5 and max(spells) < 9, "spells of five seconds", status["samples"])
        counted = status["hosts"][0]
        self.holds(counted["read_bytes"] >= 3 * 1024, "the bytes of three READs", counted)
        wanted = counted["commands"], counted["read_bytes"]
        self.wants((first["commands"] + last["commands"], first["bytes"]), wanted, "what a host did")
        self.wants((last["commands"], last["bytes"], last["slowest"]), (0, 0, None), "what no host did")
        self.holds(first["slowest"] in range(12), "the bucket of the slowest command", first)
        self.stops(server, error=None)

    def latencies(self, server):
        """The commands of each operation by their histogram, and whether they took time."""
        text, found = server.get("/metrics")[2], {}
        for operation in "read", "write", "synchronize_cache", "other":
            name, labels = "^autoraid_command_seconds", f'{{operation="{operation}"'
            buckets = re.findall(rf'{name}_bucket{labels},le="([^"]+)"}} (\d+)$', text, re.MULTILINE)
            total = re.search(rf"{name}_sum{labels}}} ([\d.]+)$", text, re.MULTILINE)[1]
            count = re.search(rf"{name}_count{labels}}} (\d+)$", text, re.MULTILINE)[1]
            values = [int(value) for _, value in buckets]
            is_whole = values == sorted(values) and values[-1] == int(count) and buckets[-1][0] == "+Inf"
            self.holds(is_whole, "buckets that grow, up to +Inf, which has all", buckets)
            self.wants([float(bound) for bound, _ in buckets[:-1]], BOUNDS, "the bounds in seconds")
            found[operation] = int(count), float(total) > 0
        return found

    def test_latencies(self):
        """Three READs, two WRITEs, a SYNCHRONIZE CACHE and a TEST UNIT READY over iSCSI."""
        server = self.serve("0:0:8", doors=("operator", "http", "iscsi"))
        wanted = {name: (0, False) for name in ("read", "write", "synchronize_cache", "other")}
        self.wants(self.latencies(server), wanted, "before any command")
        host = self.kept(server.initiator(0))
        # (the first command of a session has UNIT ATTENTION, whether it comes to the array or not)
        self.wants(host.asks(TEST_UNIT_READY)[1].status, 2, "the first command")
        early = self.latencies(server)["other"][0]
        for _ in range(3):
            self.wants(host.asks(read_10(0, 2), flags=0xC1, expected=1024)[1].status, 0, "a READ")
        for _ in range(2):
            self.wants(host.asks(write_10(0, 1), flags=0xA1, expected=512, data=bytes(512))[1].status, 0, "a WRITE")
        self.wants(host.asks(b"\x35")[1].status, 0, "SYNCHRONIZE CACHE")
        self.wants(host.asks(TEST_UNIT_READY)[1].status, 0, "TEST UNIT READY")
        counts = {name: count for name, (count, _) in self.latencies(server).items()}
        # (the target asks the array by commands of its own, too)
        self.holds(counts["other"] > early, "TEST UNIT READY was timed", counts)
        wanted = {"read": 3, "write": 2, "synchronize_cache": 1, "other": counts["other"]}
        self.wants(counts, wanted, "commands that were timed")
        said = server.status_json()
        listed = {name: sum(times["buckets"]) for name, times in said["latencies"].items()}
        self.wants((listed, [micros / 1e6 for micros in said["latency_bounds_micros"]]), (wanted, BOUNDS), "as JSON")
        self.has_form(server.get("/metrics")[2])
        self.stops(server)

    def test_latencies_by_frames(self):
        """Commands of a host by frames are timed, too: two READs, a WRITE, an INQUIRY and one that is refused."""
        server = self.serve("0:0:8", doors=("operator", "http"))
        host = self.kept(server.log_in(0))
        self.wants(host.writes(0, bytes(512)).status, GOOD, "a WRITE")
        for _ in range(2):
            self.wants(host.reads(0, 2).status, GOOD, "a READ")
        self.wants(host.asks(b"\x12\0\0\0\x24\0").status, GOOD, "INQUIRY")
        self.wants(host.asks(b"\xFF").status, 2, "a command that there isn't")
        wanted = {"read": (2, True), "write": (1, True), "synchronize_cache": (0, False), "other": (2, True)}
        self.wants(self.latencies(server), wanted, "commands that were timed")
        self.stops(server)

    def test_looks_beside_a_host(self):
        """An array's own metrics are not commands of hosts."""
        server = self.watched("0:0:8")
        for _ in range(20):
            server.get("/metrics")
        said = ran(program("ar_client"), "--port", server.port, "--host", "0", text="tur 0 0\n")
        self.wants(said.out, "good\n", "a client")
        self.stops(server, [1, 0, 0, 0])
