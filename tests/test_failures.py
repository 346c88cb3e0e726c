"""What a server says of disks that fail, where an operator looks: on standard error, also without --log."""
from tests.harness import Case, untimed


class Failures(Case):
    def ended(self, orders, *words, **how):
        """A server whose host writes after these orders: its standard error, and how it ended."""
        server = self.serve("--disks", "5", "0:0:32", *words, **how)
        server.answers_to("".join(f"{order}\n" for order in orders))
        host = self.kept(server.log_in(0))
        for block in range(16):
            host.writes(2 * block, b"f" * 1024)
        host.close()
        server.wait_for_none()
        self.wants(server.answers_to("stop\n"), "stopped\n", "an operator's stop")
        return server.ended()

    def says(self, ended, status, last, *lines):
        self.wants(untimed(ended.error).splitlines(), list(lines), "the server's standard error")
        self.wants((ended.status, ended.out.splitlines()[-1]), (status, last), "the status and the last line")

    def test_none(self):
        self.says(self.ended([]), 0, "closed ok")

    def test_taken_out(self):
        said = "[WARN  autoraid] disk 1 failed: an operator took it out"
        self.says(self.ended(["out 1"]), 0, "closed ok", said)

    def test_faulted(self):
        said = "[WARN  autoraid] disk 3 failed: an access faulted"
        self.says(self.ended(["fail 3 0"]), 0, "closed ok", said)

    def test_at_the_end(self):
        """A disk that fails just before the stop."""
        server = self.serve("--disks", "5")
        self.wants(server.answers_to("out 4\nstop\n"), "ok\nstopped\n", "a disk that is taken out, and a stop")
        said = "[WARN  autoraid] disk 4 failed: an operator took it out"
        self.says(server.ended(), 0, "closed ok", said)

    def test_two(self):
        """The second disk's failure is that of the array."""
        said = "[WARN  autoraid] disk 3 failed: an operator took it out"
        lost = "[ERROR autoraid] array failed: disks 1 and 3 missing at once"
        ended = self.ended(["out 3", "fail 1 0"], audit="off")
        self.says(ended, 3, "closed, data lost", said, lost, "data lost")

    def test_two_taken_out(self):
        said = "[WARN  autoraid] disk 0 failed: an operator took it out"
        lost = "[ERROR autoraid] array failed: disks 0 and 2 missing at once"
        ended = self.ended(["out 0", "out 2", "health", "out 2 force"])
        self.says(ended, 3, "closed, data lost", said, lost, "data lost")
