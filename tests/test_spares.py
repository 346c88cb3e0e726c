"""Hot spares: failed disks are replaced by themselves while spares are left, under a load that is verified."""
import time

from tests.harness import Case, untimed, waited

BLOCKS = 12
# Looks of the service at its array, ten a second, in which a disk would be replaced.
LOOKS = 1


class Spares(Case):
    def begins(self, *words):
        words = ["--disks", "5", "--extents", "16", *words, f"0:0:{2 * BLOCKS}"]
        self.server = self.serve(*words, doors=("operator", "http"), audit="off")
        self.host, self.operator = self.kept(self.server.log_in(0)), self.kept(self.server.operator())
        self.rounds = 0

    def loads(self):
        """Writes each block and reads it back."""
        self.rounds += 1
        for block in range(BLOCKS):
            data = bytes([self.rounds % 256, block]) * 512
            self.wants(self.host.writes(2 * block, data).status, 0, f"a WRITE of block {block}")
            self.wants(self.host.reads(2 * block, 2).data, data, f"what block {block} holds")

    def events(self):
        """What has happened to disks, the newest first."""
        return [(event["kind"], event["disk"]) for event in self.server.status_json()["events"]]

    def fails(self, disk):
        """A disk fails under the load."""
        before = len(self.events())
        self.wants(self.operator.asks(f"fail {disk} 0"), ["ok"], "a disk that is told to fail")
        begun = time.monotonic()
        while len(self.events()) == before and time.monotonic() - begun < 20:
            self.loads()

    def recovers(self):
        """The array is whole again, and stays so, while the load goes on."""

        def health_after_a_load():
            self.loads()
            return self.operator.asks("health")

        self.wants(waited(health_after_a_load, ["whole"]), ["whole"], "the health once the spare is rebuilt")

    def has_left(self, count):
        said = self.operator.asks("usage")[-1], self.server.status_json()["spares"]
        said += (self.server.sample("autoraid_spare_disks"),)
        self.wants(said, (f"spares {count}", count, str(count)), "the spares that are left")

    def lines(self):
        """The log, once the service has ended."""
        self.host.close()
        self.operator.close()
        self.wants(self.server.answers_to("stop\n"), "stopped\n", "an operator's stop")
        return untimed(self.ends(self.server, error=None).error).splitlines()

    def test_one_failure_after_another(self):
        """Two spares: for a disk, and for the spare in its place. The third failure leaves the array degraded."""
        self.begins("--spares", "2")
        self.has_left(2)
        for left in (1, 0):
            self.fails(1)
            self.recovers()
            self.has_left(left)
        self.fails(3)
        self.wants(self.operator.waits("health", ["out 3"]), ["out 3"], "the health without a spare")
        time.sleep(LOOKS)
        self.loads()
        self.wants(self.operator.asks("health"), ["out 3"], "the same later")
        once = [("disk_rebuilt", 1), ("disk_replaced", 1), ("disk_failed", 1)]
        self.wants(self.events(), [("disk_failed", 3), *once, *once], "what has happened")
        self.wants(self.operator.asks("replace 3"), ["ok"], "an operator's disk")
        self.recovers()
        failed, warned = "failed: an access faulted", "[WARN  autoraid] "
        wanted = [f"disk 1 {failed}", "disk 1 replaced by a spare, 1 left"]
        wanted += [f"disk 1 {failed}", "disk 1 replaced by a spare, 0 left"]
        wanted += [f"disk 3 {failed}", "no spare is left for disk 3"]
        self.wants(self.lines(), [warned + line for line in wanted], "the log")

    def test_taken_out(self):
        """A disk that an operator takes out is left to the operator, one that fails later is not."""
        self.begins("--spares", "1")
        self.loads()
        self.wants(self.operator.asks("out 2"), ["ok"], "a disk that is taken out")
        time.sleep(LOOKS)
        self.wants(self.operator.asks("health"), ["out 2"], "the health later")
        self.has_left(1)
        self.wants(self.operator.asks("replace 2"), ["ok"], "an operator's disk")
        self.recovers()
        self.has_left(1)
        self.fails(2)
        self.recovers()
        self.has_left(0)

    def test_none(self):
        """Without the option nothing is replaced, and no line misses a spare."""
        self.begins()
        self.has_left(0)
        self.fails(4)
        time.sleep(LOOKS)
        self.wants(self.operator.asks("health"), ["out 4"], "the health later")
        self.wants(self.lines(), ["[WARN  autoraid] disk 4 failed: an access faulted"], "the log")
