"""Who logs in too late or says nothing is disconnected, and keeps nobody out."""
import contextlib
import socket
import struct
import threading
import time

from tests.harness import ACCEPTED, LOGIN, Case, Initiator, connected, read_10, rest_of, sends_slowly, write_10

# The head of a request that a client sends a byte at a time.
SLOW_HEAD = b"GET /healthz HTTP/1.1\r\nHost: localhost\r\nX: " + b"x" * 1000


def closes(link):
    """Whether the other side closes, and writes nothing before."""
    try:
        return link.recv(1) == b""
    except ConnectionResetError:
        return True


class TimedCase(Case):
    def passes(self, begun, least, most, what):
        passed = time.monotonic() - begun
        self.holds(least <= passed < most, f"{what} in {least} to {most} s", f"{passed:.1f} s")


class Timeouts(TimedCase):
    def test_silent_hosts_with_a_log(self):
        """A connection that never logs in, a login that comes a byte at a time, a session that falls silent."""
        server, begun = self.serve("--login-timeout", "1", "--idle-timeout", "2", "--log"), time.monotonic()
        silent, slow = connected(server.port), connected(server.port)
        host = server.log_in(3)
        sends_slowly(slow, LOGIN)
        self.wants(rest_of(silent), b"", "what a silent connection receives")
        self.passes(begun, 1, 5, "a silent connection ends")
        self.wants(rest_of(slow), b"", "what a slow login receives")
        self.passes(begun, 1, 5, "a slow login ends")
        self.wants(rest_of(host.link), b"", "what a silent session receives")
        self.passes(begun, 2, 6, "a silent session ends")
        ports = [link.getsockname()[1] for link in (silent, slow, host.link)]
        for link in silent, slow, host:
            link.close()
        self.wants(server.answers_to("stop\n"), "stopped\n", "a stop")
        error = self.ends(server, [0, 0, 0, 0], error=None).error
        said = sorted(line.split("] ")[-1].split(", ")[0] for line in error.splitlines())
        wanted = [f"session {number} of 127.0.0.1:{port} started" for number, port in enumerate(ports, 1)]
        wanted += ["session 1 ended: Read", "session 2 ended: Read", "session 3 host 3 ended: Read"]
        self.wants(said, sorted(wanted), "the log")

    def test_silent_clients(self):
        """Eight that don't log in, and a session of each host that says nothing or stops in the middle of a frame."""
        server = self.serve("--login-timeout", "1", "--idle-timeout", "1", "0:0:8")
        operator, begun = self.kept(server.operator()), time.monotonic()
        idle = [self.kept(connected(server.port)) for _ in range(8)]
        for link in idle[::2]:
            link.sendall(b"ARAI")
        seated = [self.kept(server.log_in(host)) for host in range(4)]
        self.wants([host.greeting for host in seated], [ACCEPTED] * 4, "logins beside clients that don't")
        seated[0].link.sendall(bytes.fromhex("0000001900"))
        said = [closes(link) for link in [*idle, *(host.link for host in seated)]]
        self.wants(said, [True] * 12, "whether each is disconnected without a word")
        self.passes(begun, 0.9, 20, "silent clients are disconnected")
        again = server.log_in(0)
        self.wants(again.greeting, ACCEPTED, "a login after a silent session of its host")
        again.close()
        self.wants(operator.waits("sessions", []), [], "sessions at the end")
        self.stops(server, [0, 0, 0, 0])

    def test_slow_initiators(self):
        """An initiator whose login comes a byte at a time, and one that is in for longer than a login may take."""
        server = self.serve("--login-timeout", "1", doors=("operator", "iscsi"))
        slow, begun = self.kept(connected(server.iscsi_port)), time.monotonic()
        quick = self.kept(Initiator(server.iscsi_port))
        said = quick.discovers()
        self.wants((said.opcode, said.login_status), (0x23, b"\0\0"), "the login of a quick initiator")
        # (a Login Request, with the first ten bytes of 100 that it announces)
        slow.sendall(struct.pack(">BBHI", 0x43, 0x87, 0, 100) + bytes(40))
        sends_slowly(slow, b"InitiatorN")
        self.wants(rest_of(slow), b"", "what a slow initiator receives")
        self.passes(begun, 1, 5, "a slow login ends")
        self.wants(quick.ping().opcode, 0x20, "the answer to a NOP-Out of an initiator that is logged in")
        quick.close()
        self.stops(server, [0, 0, 0, 0])

    def test_discovery(self):
        """A session for discovery ends after 10 s, whether it is idle or asks for answers."""
        server, begun = self.serve("--login-timeout", "5", doors=("operator", "iscsi")), time.monotonic()
        idle, busy = (self.kept(Initiator(server.iscsi_port)) for _ in range(2))
        for initiator in idle, busy:
            said = initiator.discovers()
            self.wants((said.opcode, said.login_status), (0x23, b"\0\0"), "a login for discovery")
        with contextlib.suppress(OSError):
            while busy.ping() and time.monotonic() - begun < 30:
                time.sleep(0.5)
        self.passes(begun, 9, 14, "a session that sends NOP-Outs ends")
        self.wants(rest_of(idle.link), b"", "what an idle session receives")
        self.passes(begun, 9, 15, "an idle session ends")
        self.stops(server, [0, 0, 0, 0])

    def test_first_line(self):
        """An operator's first line has to come within 30 s, and the next may be later."""
        server, begun = self.serve(), time.monotonic()
        silent, slow, heard = (self.kept(server.operator()) for _ in range(3))
        self.wants(heard.asks("health"), ["whole"], "an operator at first")
        slow.link.sendall(b"health")
        self.wants(rest_of(silent.link), b"", "what a silent operator receives")
        self.passes(begun, 29, 35, "a silent operator is disconnected")
        self.wants(rest_of(slow.link), b"", "what an operator without a whole line receives")
        self.passes(begun, 29, 36, "and so is one without a whole line")
        self.wants(heard.asks("health"), ["whole"], "an operator half a minute later")
        self.stops(server, [0, 0, 0, 0])

    def test_slow_heads(self):
        """Clients that send the head of a request a byte at a time keep a health check waiting for some seconds."""
        server, is_over = self.serve(doors=("operator", "http")), threading.Event()

        def asks_slowly():
            with connected(server.http_port) as link:
                sends_slowly(link, SLOW_HEAD, is_over=is_over)

        clients = [threading.Thread(target=asks_slowly) for _ in range(24)]
        for client in clients:
            client.start()
        time.sleep(0.3)
        begun = time.monotonic()
        status = server.get("/healthz")[0]
        passed = time.monotonic() - begun
        is_over.set()
        for client in clients:
            client.join()
        self.wants(status, 200, "a health check beside slow clients")
        self.holds(passed < 12, "it is answered within 12 s", f"{passed:.1f} s")
        self.stops(server, [0, 0, 0, 0])

    def test_half_a_login_that_ends(self):
        """The end of a client's input in the middle of its login ends the connection at once."""
        server, begun = self.serve("--login-timeout", "30"), time.monotonic()
        with connected(server.port) as link:
            link.sendall(LOGIN[:5])
            link.shutdown(socket.SHUT_WR)
            self.wants(rest_of(link), b"", "what half a login receives")
        self.passes(begun, 0, 10, "half a login ends")
        self.stops(server, [0, 0, 0, 0])


class Pings(TimedCase):
    """An initiator that says nothing is sent a NOP-In that wants an answer (RFC 7143, 11.19)."""

    SECTOR = b"\xA5" * 512

    def served(self, *words):
        return self.serve(*words, "--extents", "16", "0:0:24", "1:0:8", doors=("operator", "iscsi"))

    def ready(self, server, host=0):
        """An initiator whose first command has reported that its session is new."""
        initiator = self.kept(server.initiator(host))
        initiator.asks(bytes(6))
        return initiator

    def pinged(self, initiator, least=0.7, most=1.9):
        """Waits for a ping, and compares all of its fields but the target transfer tag."""
        begun = time.monotonic()
        said = initiator.receive()
        self.passes(begun, least, most, "a ping comes")
        numbers = initiator.exp_stat_sn, initiator.cmd_sn, initiator.cmd_sn + 15
        wanted = bytes([0x20, 0x80, *bytes(14)]) + b"\xFF" * 4, struct.pack(">3I", *numbers) + bytes(12), b""
        self.wants((said.header[:20], said.header[24:], said.data), wanted, "a ping but for its tag")
        self.holds(said.number(20) != 0xFFFFFFFF, "a target transfer tag", said.header[20:24])
        return said

    def test_an_initiator_that_answers(self):
        """It stays for several pings, and the numbers of what it asks for go on as if there had been none."""
        server = self.served("--iscsi-ping", "1")
        initiator = self.ready(server)
        initiator.asks(write_10(5, 1), flags=0xA1, expected=512, data=self.SECTOR)
        for _ in range(4):
            initiator.answers(self.pinged(initiator))
        stat_sn = initiator.exp_stat_sn
        found, said = initiator.asks(read_10(5, 1), flags=0xC1, expected=512)
        self.wants((found, said.status, said.stat_sn), (self.SECTOR, 0, stat_sn), "a READ after four pings")
        self.pinged(initiator)
        self.wants(initiator.ping(b"here").data, b"here", "a NOP-Out while a ping is unanswered")
        initiator.answers(self.pinged(initiator))
        initiator.close()
        self.stops(server)

    def test_an_initiator_that_does_not_answer(self):
        """Its session ends, and another initiator has its host's seat at once."""
        server = self.served("--iscsi-ping", "1")
        silent, begun = self.ready(server), time.monotonic()
        self.pinged(silent)
        self.wants(rest_of(silent.link), b"", "what comes after a ping that isn't answered")
        self.passes(begun, 1.8, 4, "its session ends")
        begun = time.monotonic()
        self.ready(server).close()
        self.passes(begun, 0, 1.5, "another has its host's seat")
        self.stops(server)

    def test_an_initiator_inside_a_pdu(self):
        """One that stops inside a PDU isn't pinged, and its session ends no sooner; the rest of the PDU may come."""
        server = self.served("--iscsi-ping", "1")
        cut, late, begun = self.ready(server), self.ready(server, 1), time.monotonic()
        for initiator in cut, late:
            initiator.link.sendall(b"\x40\x80" + bytes(14))
        time.sleep(1.5)
        late.link.sendall(struct.pack(">8I", 0x77, 0xFFFFFFFF, late.cmd_sn, late.exp_stat_sn, *bytes(4)))
        self.wants(late.receive().tag, 0x77, "the answer to a NOP-Out that stopped for longer than a ping takes")
        self.wants(rest_of(cut.link), b"", "what comes after half a header")
        self.passes(begun, 1.8, 4, "its session ends")
        late.close()
        self.stops(server)

    def test_an_initiator_that_takes_nothing(self):
        """It can't be pinged, since its answers fill the connection: its session ends as one that doesn't answer."""
        server = self.serve(
            "--iscsi-ping", "1", "--geometry", "paper", "--extents", "16", "0:0:32M", doors=("operator", "iscsi")
        )
        initiator, begun = self.ready(server), time.monotonic()
        for _ in range(4):
            initiator.sends(read_10(0, 32768), flags=0xC1, expected=32768 * 512)
        self.wants(server.wait_for_none(), "", "sessions after it has taken nothing")
        self.passes(begun, 1.8, 8, "its session ends")
        self.stops(server)

    def test_an_initiator_that_owes_data(self):
        """A WRITE's data may come after a ping, whose tag isn't that of the R2T."""
        server = self.served("--iscsi-ping", "1")
        initiator = self.ready(server)
        tag = initiator.sends(write_10(5, 1), flags=0xA1, expected=512)
        asked = initiator.receive()
        self.wants(asked.opcode, 0x31, "what asks for the data")
        said = self.pinged(initiator)
        self.holds(said.number(20) != asked.number(20), "another tag than the R2T's", said.header)
        initiator.answers(said)
        words = asked.number(20), 0, initiator.exp_stat_sn, 0, 0, 0
        initiator.send(0x05, 0x80, words, self.SECTOR, tag=tag)
        self.wants(initiator.receive().status, 0, "the WRITE")
        initiator.close()
        self.stops(server)

    def test_other_silences(self):
        """A first ping comes after 15 s, unless it is said to come never."""
        never, usual = self.served("--iscsi-ping", "0"), self.served()
        silent, pinged = self.ready(never), self.ready(usual)
        pinged.answers(self.pinged(pinged, 14, 18))
        self.wants((pinged.ping(b"a").data, silent.ping(b"b").data), (b"a", b"b"), "what both receive next")
        for server, initiator in (never, silent), (usual, pinged):
            initiator.close()
            self.stops(server)
