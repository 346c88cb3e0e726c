"""The log of a served array: the time of each line, and what becomes of lines that nobody reads."""
import datetime
import fcntl
import os
import re
import time

from tests.harness import LOGGED, Case, Output, connected, text_of

SOURCE = text_of("crates", "ar_logging", "src", "sinks.rt")
# The lines that may wait in a server, and the seconds for which its end waits for a reader.
MOST_LINES, LAST_WAIT = (int(re.search(rf"{name}: \w+ = (\d+);", SOURCE)[1]) for name in ("MOST_LINES", "LAST_WAIT"))
# The bytes that a pipe takes here, and those that each line has at least, with its end.
PIPE, LEAST = 4096, len("[2026-11-30T00:10:07Z INFO  autoraid] session 1 of 127.0.0.1:1 started\n")


def time_of(line):
    """The second at which a line was logged."""
    said = datetime.datetime.strptime(LOGGED.fullmatch(line)[1], "%Y-%m-%dT%H:%M:%SZ")
    return said.replace(tzinfo=datetime.timezone.utc).timestamp()


class Lines(Case):
    def are_timed(self, lines, begun):
        """Looks that each line has a time, and that none lies before the server's start or after now."""
        self.wants([line for line in lines if not LOGGED.fullmatch(line)], [], "lines of another form")
        times = [time_of(line) for line in lines]
        is_within = int(begun) <= min(times) and max(times) <= time.time()
        self.holds(is_within, f"times from {begun} to {time.time()}", times)
        return times

    def test_times(self):
        """They are of UTC, whatever the server's time zone."""
        begun, server = time.time(), self.serve("0:0:8", "--log", env={**os.environ, "TZ": "Asia/Tokyo"})
        ports = []
        for number in range(3):
            host = server.log_in(number)
            ports.append(host.link.getsockname()[1])
            host.is_ready()
            host.close()
            self.wants(server.wait_for_none(), "", "sessions that haven't ended")
        self.wants(server.answers_to("out 1\nstop\n"), "ok\nstopped\n", "a disk that is taken out, and a stop")
        lines = self.ends(server, error=None).error.splitlines()
        times = self.are_timed(lines, begun)
        self.wants(times, sorted(times), "the times, in the order of the lines")
        said = [re.sub(", .*", "", LOGGED.fullmatch(line)[3]) for line in lines]
        wanted = []
        for number, port in enumerate(ports, 1):
            wanted += [f"session {number} of 127.0.0.1:{port} started"]
            wanted += [f"session {number} host {number - 1} ended: End"]
        wanted += ["disk 1 failed: an operator took it out"]
        self.wants(said, wanted, "what the lines say")

    def unread(self, sessions, *words):
        """A server that nobody reads, once it has had this many sessions, and where its log can be read."""
        reads, writes = os.pipe()
        fcntl.fcntl(writes, fcntl.F_SETPIPE_SZ, PIPE)
        log = self.kept(os.fdopen(reads, encoding="utf-8"))
        server = self.serve("0:0:8", "--log", *words, stderr=writes, audit="off")
        os.close(writes)
        for _ in range(sessions):
            connected(server.port).close()
        host = server.log_in(0)
        self.wants(host.is_ready(), True, "a host of a server whose log nobody reads")
        host.close()
        return server, log

    def test_dropped_lines(self):
        """Each line is there or counted, once somebody reads."""
        begun, sessions = time.time(), 700
        server, log = self.unread(sessions - 1)
        log = Output(log)
        self.stops(server, [1, 0, 0, 0])
        lines = log.rest().splitlines()
        self.are_timed(lines, begun)
        dropped = [int(said[1]) for line in lines if (said := re.search(r"\] (\d+) lines dropped$", line))]
        self.wants(len(lines) - len(dropped) + sum(dropped), 2 * sessions, "the lines, and those that were dropped")
        least = 2 * sessions - MOST_LINES - 1 - PIPE // LEAST
        self.holds(sum(dropped) >= least, f"at least {least} dropped lines", dropped)

    def ends_unread(self, orders, status, last):
        server, _log = self.unread(700)
        begun = time.monotonic()
        said = server.answers_to(f"{orders}stop\n").splitlines()[-1]
        answered = time.monotonic() - begun
        self.wants(said, "stopped", "an operator's stop")
        ended = server.ended()
        passed = time.monotonic() - begun
        self.wants((ended.status, ended.out.splitlines()[-1]), (status, last), "the end of a server that nobody reads")
        self.holds(answered < LAST_WAIT <= passed < LAST_WAIT + 10, f"an end after {LAST_WAIT} s", (answered, passed))

    def test_end_that_nobody_reads(self):
        self.ends_unread("", 0, "closed")

    def test_failure_that_nobody_reads(self):
        self.ends_unread("out 0\nout 2 force\n", 3, "closed, data lost")
