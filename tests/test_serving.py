"""Arrays that are served to clients in turn, with an audit and without: what each is answered, and what the server
reports."""
import contextlib
import socket

from tests.harness import ACCEPTED, Case, Ended, answered, connected, free_port, program, ran, rest_of, waited

# The words of the server; what each client, by its host, asks and is answered; how many commands of each host are
# reported.
IN_TURN = (
    # A unit of host 0 with 24 sectors and one of host 1 with 8. A unit keeps what its own host wrote, also from one
    # session to the next.
    ["--sessions", "3", "0:0:24", "1:0:8"],
    [
        (0, "write 0 0 1 1 AA\nread 0 0 0 2\n", "good\ngood 512x00 512xAA\n"),
        (1, "read 1 0 0 2\nwrite16 1 0 0 8 BB\nread16 1 0 6 2\n", "good 1024x00\ngood\ngood 1024xBB\n"),
        (0, "read 0 0 0 3\ntur 0 1\nread 0 0 23 2\n", "good 512x00 512xAA 512x00\ncheck 05/25/00\ncheck 05/21/00\n"),
    ],
    [5, 3, 0, 0],
)
# The longest commands, on the last LUN of the last host, through a cache of four blocks.
LONGEST = (
    ["--geometry", "paper", "--extents", "16", "--cache", "4", "--sessions", "2", "3:7:70000"],
    [
        (3, "write 3 7 5 2048 A1\nread 3 7 4 2049\ntur 3 8\n", "good\ngood 512x00 1048576xA1\ncheck 05/25/00\n"),
        (
            3,
            "write16 3 7 4465 65535 B2\nread 3 7 4465 65535\nread 3 7 0 65535\n",
            "good\ngood 33553920xB2\ngood 2560x00 1048576xA1 1234944x00 31267840xB2\n",
        ),
    ],
    [0, 0, 0, 6],
)
# The doors beside that of hosts, what ends the service, and the last line of its report: `closed ok` where transcripts
# were compared with the history.
DEFAULTS = (
    ((), ("--sessions", "1"), "closed ok"),
    (("operator", "http"), ("--sessions", "1"), "closed ok"),
    (("operator",), (), "closed"),
    (("iscsi",), ("--sessions", "1"), "closed"),
    (("operator", "iscsi"), (), "closed"),
)


def refuses(port):
    """Whether nothing listens at a port any more."""
    try:
        connected(port).close()
    except OSError:
        return True
    return False


class Serving(Case):
    def served(self, audit, words, clients, commands):
        """Serves clients in turn; the server ends with the last."""
        server = self.serve(*words, audit=audit)
        for number, (host, lines, wanted) in enumerate(clients):
            if number:
                self.wants(server.wait_for_none(), "", "sessions once a client has left")
            said = server.client(host, lines)
            self.wants(said.out + said.error, wanted, f"what a client of host {host} received")
        self.ends(server, commands)

    def test_clients_in_turn(self):
        self.served("full", *IN_TURN)

    def test_longest_commands(self):
        self.served("full", *LONGEST)

    def test_clients_in_turn_without_an_audit(self):
        self.served("off", *IN_TURN)

    def test_longest_commands_without_an_audit(self):
        self.served("off", *LONGEST)

    def test_a_lost_disk_without_an_audit(self):
        """No history is stored, and nothing is compared at the end; each unit keeps what its host wrote."""
        server = self.serve("--disks", "5", "--extents", "16", "0:0:24", audit="off")
        said = server.client(0, "write 0 0 3 2 C3\ntur 0 1\n")
        self.wants(said, Ended(0, "good\ncheck 05/25/00\n", ""), "a client")
        self.wants(server.answers_to("out 1\nmake 1 0 8\n"), "ok\nok\n", "an operator")
        self.wants(server.client(0, "read 0 0 2 4\n"), Ended(0, "good 512x00 1024xC3 512x00\n", ""), "with a disk lost")
        said = server.answers_to("replace 1\ndrop 1 0\ncounts\n").splitlines()[:3]
        self.wants(said, ["ok", "ok", "host 0 commands 3 read 2048 written 1024"], "an operator's counts")
        self.wants(server.client(0, "read 0 0 3 2\n"), Ended(0, "good 1024xC3\n", ""), "with the disk replaced")
        self.stops(server, [4, 0, 0, 0])

    def test_words_that_no_client_has(self):
        """A word of the array ends a client's script, also one that changes what a unit holds."""
        words = "unmap 0 0 0 8", "make 0 1 8", "flush", "room"
        server = self.serve("--sessions", str(len(words)), "0:0:8")
        for number, word in enumerate(words):
            if number:
                self.wants(server.wait_for_none(), "", "sessions once a client has left")
            said = server.client(0, f"read 0 0 0 8\n{word}\nwrite 0 0 0 8 AA\n")
            error = "line 2: unknown word\na host sends commands alone: other words are an operator's\n"
            self.wants(said, Ended(1, "good 4096x00\n", error), f"a client's script with {word}")
        self.ends(server, [len(words), 0, 0, 0])

    def test_default_of_the_audit(self):
        """Without `--audit` the history is kept where a number of sessions ends the service, but not with iSCSI."""
        for doors, sessions, ending in DEFAULTS:
            with self.subTest(doors=doors, sessions=sessions):
                server = self.serve(*sessions, "0:0:8", doors=doors, audit=None, ending=ending)
                self.wants(server.client(0, "tur 0 0\n"), Ended(0, "good\n", ""), "a client")
                if sessions:
                    self.ends(server, [1, 0, 0, 0])
                else:
                    self.stops(server, [1, 0, 0, 0])

    def test_strays_are_no_sessions(self):
        """Connections that don't log in don't count, nor does a login that is refused."""
        server = self.serve("--sessions", "2", "0:0:8", doors=())
        for sent in b"", b"ARAI", b"no login of mine", b"ARAIDHO1\x09":
            answered(server.port, sent)
        for number in range(2):
            host = self.kept(server.log_in_again(0))
            self.wants((host.greeting, host.is_ready()), (ACCEPTED, True), f"session {number}")
            host.close()
        self.ends(server, [2, 0, 0, 0])

    def test_strays_beside_the_last_session(self):
        """The last session ends those that haven't logged in, and nobody comes after it."""
        server = self.serve("--sessions", "1", "--login-timeout", "60", "0:0:8", doors=())
        strays = [self.kept(connected(server.port)) for _ in range(3)]
        host = self.kept(server.log_in(0))
        self.wants(waited(lambda: refuses(server.port), True, seconds=5), True, "whether the port is closed")
        self.wants([rest_of(stray) for stray in strays], [b""] * 3, "what those receive that haven't logged in")
        self.wants(host.is_ready(), True, "TEST UNIT READY of the last session")
        host.close()
        self.ends(server, [1, 0, 0, 0])

    def test_a_host_in_use(self):
        """A second session of a host is refused while the first is open."""
        server = self.serve("--sessions", "2", doors=())
        first = self.kept(server.log_in(2))
        self.wants(first.greeting, ACCEPTED, "the first login")
        self.wants(server.client(2, "tur 2 0\n"), Ended(1, "", "login refused\n"), "the second session of a host")
        first.close()
        last = self.kept(server.log_in_again(2))
        self.wants(last.greeting, ACCEPTED, "the next login, once the first session has ended")
        last.close()
        self.ends(server, [0, 0, 0, 0])

    def test_loopback_alone(self):
        """Each door listens at 127.0.0.1, and at no other address of this machine."""
        server = self.serve(doors=("operator", "http", "iscsi"))
        for port in server.port, *server.doors.values():
            with self.subTest(port=port):
                with self.assertRaises(ConnectionRefusedError):
                    socket.create_connection(("127.0.0.2", port), timeout=30).close()
                self.wants(bool(connected(port).close()), False, "a connection to 127.0.0.1")
        self.stops(server, [0, 0, 0, 0])


class PortsInUse(Case):
    """A port that another program has is one clear line."""

    def refused(self, *options):
        with socket.create_server(("127.0.0.1", 0)) as other:
            taken = other.getsockname()[1]
            words = [taken if word is None else word for word in options]
            said = ran(program("autoraid"), "serve", *words)
        self.wants(said, Ended(1, "", "listen fault\n"), f"a server with {options}, None the port in use")

    def test_hosts_port_in_use(self):
        self.refused("--port", None, "--sessions", "1")

    def test_hosts_port_in_use_with_operators(self):
        self.refused("--port", None, "--operator", free_port())

    def test_operators_port_in_use(self):
        self.refused("--port", free_port(), "--operator", None)

    def test_http_port_in_use(self):
        self.refused("--port", free_port(), "--http", None, "--sessions", "1")

    def test_iscsi_port_in_use(self):
        self.refused("--port", free_port(), "--iscsi", None, "--sessions", "1")


class Connections(Case):
    """Many connections, more than there are descriptors, and as many as there may be."""

    def test_a_refused_login(self):
        """The answer to a login that is refused arrives, whatever the client has sent after it."""
        server = self.serve()
        for number in range(50):
            with connected(server.port) as link:
                link.sendall(b"no login of mine" + bytes(100_000))
                self.wants(link.recv(2), b"\1", f"a refused login, number {number}")
                with contextlib.suppress(ConnectionResetError):
                    self.wants(link.recv(2), b"", f"what follows a refused login, number {number}")
        self.stops(server, [0, 0, 0, 0])

    def many_in_turn(self, log_in_each):
        """Ten thousand connections, one after another, leave no trace."""
        server, early = self.serve("0:0:8"), 0
        for number in range(10_000):
            if log_in_each or number % 100 == 0:
                host = server.log_in_again((number if log_in_each else number // 100) % 4)
                if host.greeting != ACCEPTED:
                    self.wants(host.greeting, ACCEPTED, f"login {number}")
                host.close()
            else:
                connected(server.port).close()
            if number == 1000:
                early = server.resident()
        grown = server.resident() - early
        self.holds(grown < 4096, "9,000 connections take less than 4 MiB permanently", f"{grown} KiB")
        self.wants(server.wait_for_none(), "", "sessions once all have left")
        self.stops(server, [0, 0, 0, 0])

    def test_ten_thousand_connections(self):
        self.many_in_turn(False)

    def test_ten_thousand_logins(self):
        self.many_in_turn(True)

    def few_descriptors(self, count, timeout):
        """More connections than descriptors: none is consumed, and those that wait are served in their turn."""
        server = self.serve("--login-timeout", timeout, "0:0:8", before=["sh", "-c", 'ulimit -n 20; exec "$@"', "sh"])
        links = [connected(server.port) for _ in range(count)]
        server.answers_to("health\n")
        # (until there is something to say of them)
        said = server.outputs[1].line(20)
        for link in links:
            link.close()
        host = server.log_in(1)
        self.wants(host.greeting, ACCEPTED, "a login once there are descriptors again")
        # (host 1 has no unit)
        self.wants(host.is_ready(), False, "TEST UNIT READY of a LUN without a unit")
        host.close()
        server.wait_for_none()
        error = said + self.stopped_with_errors(server, [0, 1, 0, 0])
        lines = error.splitlines()
        self.holds(0 < len(lines) < 100, "some lines on standard error, and fewer than 100", error)
        self.wants([line for line in lines if "no connection can be accepted" not in line], [], "other lines")

    def stopped_with_errors(self, server, commands):
        self.wants(server.answers_to("stop\n"), "stopped\n", "an operator's stop")
        return self.ends(server, commands, error=None).error

    def test_few_descriptors(self):
        self.few_descriptors(30, 2)

    def test_few_descriptors_and_no_timeout(self):
        self.few_descriptors(40, 60)

    def test_connections_beyond_the_last_session(self):
        """With `--sessions` the last session ends the service, and an operator's connection with it."""
        server = self.serve("--sessions", "1")
        operator = self.kept(server.operator())
        self.wants(operator.answer_to(b"health\n"), "whole\n", "an operator beside counted sessions")
        host = server.log_in(0)
        self.wants(waited(lambda: refuses(server.port), True, seconds=5), True, "whether the port is closed")
        host.close()
        self.ends(server, [0, 0, 0, 0])
        self.wants(operator.lines.read(), "", "what an operator receives at the end")

    def largest_crowd(self, *sessions):
        """A 64th connection is served beside 63 that say nothing, of which the oldest makes room."""
        server = self.serve(*sessions, "0:0:8")
        silent = [connected(server.port) for _ in range(63)]
        host = server.log_in(0)
        self.wants((host.greeting, host.is_ready()), (ACCEPTED, True), "the 64th connection")
        for each in [*silent, host]:
            each.close()
        return server

    def test_64_connections(self):
        self.stops(self.largest_crowd(), [1, 0, 0, 0])

    def test_64_connections_and_one_session(self):
        self.ends(self.largest_crowd("--sessions", "1"), [1, 0, 0, 0])
