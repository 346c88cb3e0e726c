"""Initiators by their names: what the log, operators and HTTP clients see of their sessions, and a login that takes the
place of another session (RFC 7143, 6.3.5)."""
import re
import time

from tests.harness import ACCEPTED, TARGET, TEST_UNIT_READY, Case, Initiator, read_10, rest_of, untimed, waited
from tests.harness import write_10

NAME, OTHER = "iqn.1993-08.org.debian:01:abc", "iqn.2026-11.example:other"
ISID, ANOTHER = 0x400001370000, 0x400001370001
# The seconds within which a login has the seat of the session whose place it takes.
MOST = 2
# What is written to host 0's unit.
LBA, SECTOR = 5, b"\xA5" * 512


def port_of(session):
    """The port that a session comes from."""
    return session.link.getsockname()[1]


class NamedCase(Case):
    def setUp(self):
        super().setUp()
        doors = "operator", "http", "iscsi"
        self.server = self.serve("--extents", "16", "0:0:24", "1:0:8", "--log", doors=doors)

    def asks_in(self, host=0, name=NAME, isid=ISID):
        """A connection that asks to log in, without a host for discovery, and the status that answers it."""
        initiator = self.kept(Initiator(self.server.iscsi_port))
        kind = "SessionType=Discovery" if host is None else f"TargetName={TARGET}{host}"
        said = initiator.log_in(f"InitiatorName={name}", kind, isid=isid)
        return initiator, said and said.login_status.hex()

    def logs_in(self, *words):
        initiator, status = self.asks_in(*words)
        self.wants(status, "0000", f"a login by {words}")
        return initiator

    def is_refused(self, *words):
        self.wants(self.asks_in(*words)[1], "0302", f"a login by {words}")

    def stays(self, initiator, what):
        self.wants(initiator.ping(b"here").data, b"here", f"a NOP-In of {what}")

    def has_written(self, initiator):
        """Writes a sector, once the unit has reported that the session is new."""
        initiator.asks(write_10(LBA, 1), flags=0xA1, expected=512, data=SECTOR)
        self.wants(initiator.asks(write_10(LBA, 1), flags=0xA1, expected=512, data=SECTOR)[1].status, 0, "a WRITE")

    def has_kept(self, initiator):
        """A new session reports that it is new, and then reads what the old one has written."""
        said = initiator.asks(read_10(LBA, 1), flags=0xC1, expected=512)[1]
        self.wants(said.code, b"\x06\x29\x00", "the first READ")
        self.wants(initiator.asks(read_10(LBA, 1), flags=0xC1, expected=512)[0], SECTOR, "what was written")

    def ended(self):
        """Stops the server, and returns what its log says, without times and how long sessions took."""
        self.wants(self.server.answers_to("stop\n"), "stopped\n", "a stop")
        lines = untimed(self.ends(self.server, error=None).error).splitlines()
        return [re.sub(", .*", "", line.removeprefix("[INFO  autoraid] ")) for line in lines]


class Shown(NamedCase):
    def are_open(self, hosts, discovery):
        """Looks at the metrics, and at the same as JSON."""
        names = [f'autoraid_host_sessions{{host="{host}"}}' for host in range(4)] + ["autoraid_discovery_sessions"]
        said = [self.server.sample(name) for name in names]
        self.wants(said, [str(number) for number in [*hosts, discovery]], "metrics of sessions")
        wanted = {"hosts": [number == 1 for number in hosts], "discovery": discovery}
        self.wants(self.server.status_json()["sessions"], wanted, "the same as JSON")

    def test_sessions(self):
        """Two for discovery, one of a host over iSCSI, one of another by frames."""
        self.are_open([0, 0, 0, 0], 0)
        first, second, third = self.logs_in(None), self.logs_in(None, OTHER, ANOTHER), self.logs_in(0)
        host = self.kept(self.server.log_in(1))
        self.wants(host.greeting, ACCEPTED, "a login by frames")
        one, two, three, four = (f"127.0.0.1:{port_of(link)}" for link in (first, second, third, host))
        wanted = ["host 0 frames 0 read 0 written 0", f"host 1 frames 0 read 0 written 0 {four}"]
        wanted += [f"iscsi 1 discovery {one} {NAME}", f"iscsi 2 discovery {two} {OTHER}"]
        wanted += [f"iscsi 3 host 0 {three} {NAME}"]
        self.wants(self.server.answers_to("sessions\n").splitlines(), wanted, "an operator's `sessions`")
        self.are_open([1, 1, 0, 0], 2)
        found = self.server.status_json()["inventory"]["iscsi_sessions"]
        said = [tuple(session[name] for name in ("number", "host", "peer_port", "initiator")) for session in found]
        wanted = [(1, None, port_of(first), NAME), (2, None, port_of(second), OTHER), (3, 0, port_of(third), NAME)]
        self.wants(said, wanted, "the iSCSI sessions as JSON")
        found = self.server.status_json()["inventory"]["host_sessions"]
        said = [(session["host"], session["peer_port"]) for session in found]
        self.wants(said, [(0, None), (1, port_of(host))], "the hosts' sessions as JSON")
        for link in first, second, third, host:
            link.close()
        self.wants(self.server.wait_for_none(), "", "sessions once all have left")
        self.are_open([0, 0, 0, 0], 0)
        wanted = [f"iSCSI session 1 of {one}: {NAME} discovers", f"iSCSI session 2 of {two}: {OTHER} discovers"]
        wanted += [f"iSCSI session 3 of {three}: {NAME} is host 0", f"session 1 of {four} started"]
        said = [line for line in self.ended() if "ended" not in line]
        self.wants(said, wanted, "the log")

    def test_names_of_any_bytes(self):
        """What isn't printable is a question mark, and what is longer than 223 bytes is cut."""
        self.logs_in(0, "iqn.a b\x07\xE9" + "x" * 300)
        said = self.server.answers_to("sessions\n").splitlines()[1].split()
        # (a character of two bytes)
        self.wants(said[5:], ["iqn.a?b???" + "x" * 213], "the name that operators see")
        self.wants(sum(said[5] in line for line in self.ended()), 1, "the lines of the log with it")

    def test_login_that_is_refused(self):
        """One that waits for a seat isn't shown as a session."""
        host = self.kept(self.server.log_in(0))
        self.is_refused(0)
        said = f"host 0 frames 0 read 0 written 0 {host.place()}\n"
        self.wants(self.server.answers_to("sessions\n"), said, "sessions afterwards")
        self.wants(host.is_ready(), True, "the host's own session")
        host.close()
        self.wants([line for line in self.ended() if NAME in line], [], "lines of the log with its name")


class Reinstatement(NamedCase):
    def takes_place(self, old):
        """Logs in as the initiator of an open session, which ends."""
        begun = time.monotonic()
        new = self.logs_in(0)
        passed = time.monotonic() - begun
        self.holds(passed < MOST, f"a seat within {MOST} s", f"{passed:.2f} s")
        rest_of(old.link)
        said = [line for line in self.server.answers_to("sessions\n").splitlines() if line.startswith("iscsi")]
        self.wants([line.split()[3:5] for line in said], [["0", f"127.0.0.1:{port_of(new)}"]], "whose session is open")
        return new

    def counted(self):
        """How many commands of host 0 the array has counted."""
        return int(self.server.answers_to("counts\n").split()[3])

    def test_idle_session(self):
        old = self.logs_in(0)
        self.has_written(old)
        self.has_kept(self.takes_place(old))
        said = [line for line in self.ended() if "session 1 ended" in line]
        self.wants(len(said), 1, "the lines of the log of its end")

    def test_session_with_reads_in_flight(self):
        old = self.logs_in(0)
        self.has_written(old)
        for _ in range(16):
            old.sends(read_10(0, 24), flags=0xC1, expected=24 * 512)
        self.has_kept(self.takes_place(old))

    def test_session_that_does_not_read(self):
        """Its replies fill the connection, and it takes none."""
        old = self.logs_in(0)
        self.has_written(old)
        # (12 MiB)
        for _ in range(1024):
            old.sends(read_10(0, 24), flags=0xC1, expected=24 * 512)
        commands = -1
        while commands != (commands := self.counted()):
            time.sleep(0.1)
        self.holds(commands < 1024, "replies that wait to be read", commands)
        self.has_kept(self.takes_place(old))

    def test_write_without_its_data(self):
        """A WRITE whose data haven't come is dropped."""
        old = self.logs_in(0)
        self.has_written(old)
        old.sends(write_10(LBA, 1), flags=0xA1, expected=512)
        self.wants(old.receive().opcode, 0x31, "a target that asks for the data")
        self.has_kept(self.takes_place(old))

    def test_one_after_another(self):
        session = self.logs_in(0)
        self.has_written(session)
        for _ in range(5):
            session = self.takes_place(session)
        self.has_kept(session)

    def test_another_isid(self):
        old = self.logs_in(0)
        self.is_refused(0, NAME, ANOTHER)
        self.is_refused(0, NAME, ISID ^ 1 << 40)
        self.stays(old, "a session with another ISID")

    def test_another_name(self):
        old = self.logs_in(0)
        self.is_refused(0, OTHER)
        self.is_refused(0, NAME[:-1])
        self.stays(old, "another initiator's session")

    def test_another_target(self):
        old = self.logs_in(0)
        self.stays(self.logs_in(1), "a session with another target")
        self.stays(old, "an initiator's first session")

    def test_session_by_frames(self):
        host = self.kept(self.server.log_in(0))
        self.is_refused(0)
        self.wants(host.is_ready(), True, "a session by frames, beside a login over iSCSI")

    def asks_to_wait(self):
        """A connection that asks to log in, and doesn't wait for the answer."""
        initiator = self.kept(Initiator(self.server.iscsi_port))
        pairs = f"InitiatorName={NAME}\0TargetName={TARGET}0\0".encode()
        initiator.send(0x43, 0x87, (0, initiator.cmd_sn), pairs, place=ISID << 16)
        return initiator

    def test_login_that_waits(self):
        """It isn't shown, and waits no longer once another takes its place, which gets the seat."""
        host = self.kept(self.server.log_in(0))
        first = self.asks_to_wait()
        time.sleep(0.3)
        said = f"host 0 frames 0 read 0 written 0 {host.place()}\n"
        self.wants(self.server.answers_to("sessions\n"), said, "sessions meanwhile")
        begun, second = time.monotonic(), self.asks_to_wait()
        rest_of(first.link)
        passed = time.monotonic() - begun
        self.holds(passed < MOST / 2, f"an end within {MOST / 2} s", f"{passed:.2f} s")
        host.close()
        self.wants(second.receive().login_status, b"\0\0", "the login that took its place")

    def test_discovery(self):
        """It ends no session, and none ends it."""
        first, normal, second = self.logs_in(None), self.logs_in(0), self.logs_in(None)
        for initiator in first, normal, second:
            self.stays(initiator, "sessions for discovery beside one with a target")


class Alone(Case):
    """An array that hosts reach over iSCSI alone."""

    def test_without_a_port(self):
        server = self.serve("0:0:8", doors=("operator", "iscsi"), audit="off", frames=False)
        host = self.kept(server.initiator(0))
        self.wants(host.asks(TEST_UNIT_READY)[1].status, 2, "the first command")
        said = host.asks(write_10(LBA, 1), flags=0xA1, expected=512, data=SECTOR)[1].status
        self.wants(said, 0, "a WRITE")
        data, said = host.asks(read_10(LBA, 1), flags=0xC1, expected=512)
        self.wants((data, said.status), (SECTOR, 0), "a READ of what was written")
        begun = time.monotonic()
        self.stops(server)
        self.holds(time.monotonic() - begun < 3, "an end within three seconds", time.monotonic() - begun)


class Ended(NamedCase):
    """Sessions that an operator ends."""

    def answers(self, line, wanted):
        self.wants(self.server.answers_to(f"{line}\n"), f"{wanted}\n", f"an operator's `{line}`")

    def open_sessions(self):
        """The numbers of the iSCSI sessions."""
        lines = self.server.answers_to("sessions\n").splitlines()
        return [line.split()[1] for line in lines if line.startswith("iscsi")]

    def test_sessions_of_a_host(self):
        """Its session ends though it does not read, and its seat is free; all others go on."""
        old, discovery, other = self.logs_in(0), self.logs_in(None, OTHER, ANOTHER), self.logs_in(1)
        self.has_written(old)
        for _ in range(1024):
            old.sends(read_10(0, 24), flags=0xC1, expected=24 * 512)
        begun = time.monotonic()
        self.answers("end 0", "ok")
        self.wants(waited(self.open_sessions, ["2", "3"]), ["2", "3"], "the sessions that are left")
        self.has_kept(self.logs_in(0, OTHER))
        passed = time.monotonic() - begun
        self.holds(passed < MOST, f"a login of another initiator within {MOST} s", f"{passed:.2f} s")
        self.stays(other, "another host's session")
        self.stays(discovery, "a session for discovery")

    def test_one_session(self):
        """A number that another host's session has, or none, ends nothing."""
        first, second = self.logs_in(0), self.logs_in(1)
        self.answers("end 2", "refused: no such session")
        self.answers("end 1 1", "refused: no such session")
        self.answers("end 0 2", "refused: no such session")
        self.stays(first, "a session that nobody has ended")
        self.answers("end 1 2", "ok")
        rest_of(second.link)
        self.wants(waited(self.open_sessions, ["1"]), ["1"], "the sessions that are left")
        self.answers("end 1", "refused: no such session")
        self.stays(first, "the other session")

    def test_session_by_frames(self):
        host = self.kept(self.server.log_in(0))
        self.answers("end 0", "refused: no such session")
        self.wants(host.is_ready(), True, "a session by frames")
