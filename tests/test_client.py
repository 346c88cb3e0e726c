"""The program ar_client: what it prints, and its status, where nobody listens or the server goes."""
import os
import socket
import tempfile
import time

from tests.harness import Case, Ended, connected, exactly, free_port, program, ran, rest_of

# The answer to a client's closing line.
CLOSED = b"fault: unknown word\n"
# Of an operator's client: its lines, whether its input ends, what the door answers before it closes, and how the client
# ends.
OPERATORS = [
    ("health\n", False, b"whole\n", (1, "whole\n", "session fault\n")),
    ("health\n", True, b"", (1, "", "session fault\n")),
    ("health\n", True, b"whole\n", (1, "whole\n", "session fault\n")),
    ("health\n", True, b"whole\nfault: unkn", (1, "whole\nfault: unkn", "faulty line\n")),
    ("health\n", True, b"whole\n" + CLOSED, (0, "whole\n", "")),
    ("health", True, b"whole\n" + CLOSED, (0, "whole\n", "")),
    ("", True, CLOSED, (0, "", "")),
    ("", True, b"", (1, "", "session fault\n")),
    ("stop\n", True, b"", (1, "", "session fault\n")),
    ("stop\n", True, b"stopped\n", (0, "stopped\n", "")),
    ("stop\n", False, b"stopped\n", (0, "stopped\n", "")),
    ("stops\n", True, CLOSED + CLOSED, (1, "fault: unknown word\n", "faulty line\n")),
    ("stops\nhealth\n", True, CLOSED + b"whole\n" + CLOSED, (1, "fault: unknown word\nwhole\n", "faulty line\n")),
]


class Client(Case):
    def test_nobody_listens(self):
        said = ran(program("ar_client"), "--port", free_port(), "--host", "0")
        self.wants(said, Ended(1, "", "connect fault\n"), "a client without a server")

    def test_nobody_listens_for_long(self):
        """A client that waits a second gives up then, and not before."""
        for door in ["--port", free_port(), "--host", "0"], ["--operator", "./no-socket"]:
            begun = time.monotonic()
            said = ran(program("ar_client"), *door, "--wait", "1")
            took = time.monotonic() - begun
            self.wants(said, Ended(1, "", "connect fault: no server within 1 s\n"), f"a client at {door}")
            self.holds(0.9 < took < 20, "about a second", took)

    def test_a_server_that_comes_later(self):
        """A client that waits is answered by a server that begins after it."""
        with tempfile.TemporaryDirectory() as room:
            door = os.path.join(room, "operators")
            client = self.starts(program("ar_client"), "--operator", door, "--wait", "60", stdin=-1)
            client.process.stdin.write("health\n")
            client.process.stdin.close()
            time.sleep(0.5)
            self.holds(client.is_running(), "a client that waits", client.is_running())
            server = self.serve("0:0:8", doors={"operator": door})
            self.wants(client.ended(), Ended(0, "whole\n", ""), "a client that came before its server")
            self.stops(server, [0, 0, 0, 0])

    def server_goes(self, answer, wanted):
        """A client whose server closes the connection in place of its next answer."""
        with socket.create_server(("127.0.0.1", 0)) as door:
            words = [program("ar_client"), "--port", door.getsockname()[1], "--host", "0"]
            client = self.starts(*words, stdin=-1)
            door.settimeout(30)
            link = self.kept(door.accept()[0])
            exactly(link, 9)
            link.sendall(answer)
            link.shutdown(socket.SHUT_WR)
            with client.process.stdin as lines:
                lines.write("tur 0 0\n")
            self.wants(client.ended(), Ended(1, "", wanted), "a client whose server goes")

    def test_server_goes_before_the_login(self):
        self.server_goes(b"", "session fault\n")

    def test_server_goes_before_an_answer(self):
        self.server_goes(b"\0", "line 1: session fault\n")

    def test_silent_server(self):
        """A server that doesn't answer a login, as an operators' door, is given up after half a minute."""
        with socket.create_server(("127.0.0.1", 0)) as door:
            client = self.starts(program("ar_client"), "--port", door.getsockname()[1], "--host", "0")
            self.wants(client.ended(90), Ended(1, "", "session fault\n"), "a client whose server is silent")

    def test_operators_door_closes(self):
        """A door that closes before the input has ended, or without an answer to `stop`."""
        for row in OPERATORS:
            with self.subTest(row=row):
                self.operators_door_closes(*row)

    def operators_door_closes(self, lines, ends_input, answer, wanted):
        with socket.create_server(("127.0.0.1", 0)) as door:
            client = self.starts(program("ar_client"), "--operator", "--port", door.getsockname()[1], stdin=-1)
            door.settimeout(30)
            link = self.kept(door.accept()[0])
            link.settimeout(30)
            client.process.stdin.write(lines)
            client.process.stdin.flush()
            if ends_input:
                client.process.stdin.close()
                whole = lines if lines.endswith("\n") or not lines else lines + "\n"
                self.wants(rest_of(link).decode(), whole + "end-of-input\n", "what the client sent")
            else:
                link.recv(64)
            link.sendall(answer)
            link.close()
            client.process.wait(30)
            if not ends_input:
                client.process.stdin.close()
            self.wants(client.ended(), Ended(*wanted), "the client")

    def test_an_operators_client(self):
        """Its lines are answered; a line that is none gives status 1; `stop` ends the service and an idle session."""
        server = self.serve("0:0:8")
        host = self.kept(server.log_in(0))
        words = [program("ar_client"), "--operator", "--port", server.operator_port]
        said = ran(*words, text="health\nnone\n")
        self.wants(said, Ended(1, "whole\nfault: unknown word\n", "faulty line\n"), "a line that is none")
        self.wants(ran(*words, text="stop\n"), Ended(0, "stopped\n", ""), "a stop")
        host.link.settimeout(5)
        self.wants(rest_of(host.link), b"", "what an idle session receives at a stop")
        self.ends(server, [0, 0, 0, 0])

    def test_connections_to_a_closed_port(self):
        with self.assertRaises(ConnectionRefusedError):
            connected(free_port())
