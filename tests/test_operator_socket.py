"""Operators at a Unix socket: what its file is from its first moment to its end, who may listen at a path, and that the
door, its limits and the client are those of a port."""
import contextlib
import os
import signal
import socket
import stat
import tempfile
import threading
import time

from tests.harness import ROOT, Case, Ended, Server, connected, free_port, program, ran, rest_of, waited

REPORT = "".join(f"host {host} commands 0\n" for host in range(4)) + "closed ok\n"


class Sockets(Case):
    def setUp(self):
        super().setUp()
        folder = tempfile.TemporaryDirectory()
        self.addCleanup(folder.cleanup)
        self.folder = folder.name
        self.path = os.path.join(self.folder, "operators")

    def serves(self, *words, **how):
        return self.serve(*words, doors={"operator": self.path}, **how)

    def client(self, *words, text):
        return ran(program("ar_client"), *words, text=text)

    def is_refused(self, path):
        """A start at a path that isn't free says what one at a port in use says."""
        said = ran(program("autoraid"), "serve", "--port", free_port(), "--operator", path)
        self.wants(said, Ended(1, "", "listen fault\n"), f"a start at {path}")

    def leaves_a_socket(self):
        """Leaves the file of a socket at which nobody listens."""
        with socket.socket(socket.AF_UNIX) as left:
            left.bind(self.path)


class Files(Sockets):
    def test_mode(self):
        """Whatever the process's mask is, it is 600 whenever the file is there, and nobody else can enter the folder in
        which it is made."""
        modes, is_over = set(), threading.Event()

        def watch():
            while not is_over.is_set():
                for name in os.listdir(self.folder):
                    with contextlib.suppress(FileNotFoundError):
                        modes.add((name, stat.filemode(os.lstat(os.path.join(self.folder, name)).st_mode)))

        watcher = threading.Thread(target=watch)
        watcher.start()
        try:
            for _ in range(20):
                server = self.serves(before=("sh", "-c", 'umask 0 && exec "$0" "$@"'))
                self.stops(server, [0, 0, 0, 0])
        finally:
            is_over.set()
            watcher.join()
        self.wants(modes - {("operators.new", "drwx------")}, {("operators", "srw-------")}, "the modes that were seen")

    def test_removed_at_the_end(self):
        server = self.serves()
        self.wants(os.listdir(self.folder), ["operators"], "the folder of a socket")
        self.stops(server, [0, 0, 0, 0])
        self.wants(os.listdir(self.folder), [], "the folder after a stop")

    def test_removed_after_a_refused_start(self):
        said = ran(program("autoraid"), "serve", "--port", free_port(), "--operator", self.path, "0:0:0")
        self.wants(said, Ended(1, "", "unit 0:0:0 refused M2 Size\n"), "a unit that can't be created")
        self.wants(os.listdir(self.folder), [], "the folder after a start that was refused")

    def test_left_by_a_kill(self):
        """A file that nobody listens at is replaced, also while a start that was killed has left its folder."""
        self.serves().kill()
        self.wants(os.listdir(self.folder), ["operators"], "the folder after a kill")
        os.mkdir(self.path + ".new")
        with socket.socket(socket.AF_UNIX) as left:
            left.bind(self.path + ".new/s")
        server = self.serves()
        self.wants(server.answers_to("health\n"), "whole\n", "an operator after another start")
        self.stops(server, [0, 0, 0, 0])
        self.wants(os.listdir(self.folder), [], "the folder after a stop")

    def test_with_a_store(self):
        store = os.path.join(self.folder, "store")
        self.wants(ran(program("autoraid"), "create", "--store", store).status, 0, "a store")
        server = self.serves("--store", store, "0:0:8", audit=None, ending="closed")
        self.wants(stat.filemode(os.lstat(self.path).st_mode), "srw-------", "the socket of a store's server")
        self.stops(server, [0, 0, 0, 0])
        self.wants(os.listdir(self.folder), ["store"], "the folder after a stop")

    def test_not_a_socket(self):
        """Other files stay what they are."""
        with open(self.path, "w", encoding="ascii") as file:
            file.write("text")
        self.is_refused(self.path)
        with open(self.path, encoding="ascii") as file:
            self.wants(file.read(), "text", "the file")
        os.remove(self.path)
        os.mkdir(self.path)
        self.is_refused(self.path)
        self.wants(os.listdir(self.path), [], "the folder at the path")
        os.rmdir(self.path)
        os.symlink("nothing", self.path)
        self.is_refused(self.path)
        self.wants(os.readlink(self.path), "nothing", "the link at the path")
        self.is_refused(os.path.join(self.folder, "no", "folder"))

    def test_in_use(self):
        """The path of another server, which goes on."""
        server = self.serves()
        self.is_refused(self.path)
        self.wants(server.answers_to("health\n"), "whole\n", "the first server after the second's start")
        self.stops(server, [0, 0, 0, 0])

    def test_replaced_while_served(self):
        """A file that has taken the place of the socket's stays at the end."""
        server = self.serves()
        operator = self.kept(server.operator())
        self.wants(operator.asks("health"), ["whole"], "an operator")
        os.remove(self.path)
        self.leaves_a_socket()
        self.wants(operator.answer_to(b"stop\n"), "stopped\n", "a stop")
        self.ends(server, [0, 0, 0, 0])
        self.wants(os.listdir(self.folder), ["operators"], "the folder after a stop")


class Doors(Sockets):
    def test_four_operators_and_a_fifth(self):
        server = self.serves()
        operators = [self.kept(server.operator()) for _ in range(4)]
        for operator in operators:
            self.wants(operator.answer_to(b"health\n"), "whole\n", "one of four operators")
        fifth = self.kept(server.operator())
        self.wants(rest_of(fifth.link), b"fault: too many operators\n", "a fifth operator")
        operators.pop().close()
        self.wants(waited(lambda: server.answers_to("health\n"), "whole\n"), "whole\n", "another one")
        self.wants(operators[0].answer_to(b"stop\n"), "stopped\n", "a stop")
        self.ends(server, [0, 0, 0, 0])

    def test_a_crowd(self):
        """200 connections that say nothing don't hold up a stop."""
        server = self.serves("0:0:8")
        operator = self.kept(server.operator())
        self.wants(operator.asks("health"), ["whole"], "an operator before the crowd")
        for _ in range(200):
            self.kept(connected(self.path))
        time.sleep(1)
        begun = time.monotonic()
        self.wants(operator.answer_to(b"stop\n"), "stopped\n", "a stop beside the crowd")
        self.ends(server, [0, 0, 0, 0], error=None, seconds=20)
        self.holds(time.monotonic() - begun < 6, "the end within six seconds", f"{time.monotonic() - begun:.1f} s")

    def test_long_answers(self):
        """Answers that are more than a socket takes at once, to an operator who reads late."""
        server = self.serves("--disks", "12", "--extents", "64")
        operator = self.kept(server.operator())
        groups = operator.asks("groups")
        operator.link.sendall(b"groups\n" * 200)
        time.sleep(1)
        said = [operator.lines.readline().rstrip("\n") for _ in range(200 * len(groups))]
        self.wants(said, groups * 200, "200 times the groups")
        self.wants(operator.asks("health"), ["whole"], "health after them")
        self.stops(server, [0, 0, 0, 0])


class Clients(Sockets):
    def test_an_operators_client(self):
        server = self.serves("--disks", "5", "0:0:24")
        said = self.client("--operator", self.path, text="out 1\nhealth\nbogus\n")
        self.wants(said, Ended(1, "ok\nout 1\nfault: unknown word\n", "faulty line\n"), "orders")
        self.wants(self.client(f"--operator={self.path}", text="room\n").status, 0, "a path after '='")
        self.wants(self.client("--operator", self.path, text="stop\n"), Ended(0, "stopped\n", ""), "a stop")
        self.ends(server, [0, 0, 0, 0])
        said = self.client("--operator", self.path, text="health\n")
        self.wants(said, Ended(1, "", "connect fault\n"), "a client after the end")

    def test_a_port(self):
        """A port may follow `--operator`, too."""
        server = self.serve()
        self.wants(self.client("--operator", server.operator_port, text="health\n"), Ended(0, "whole\n", ""), "health")
        self.stops(server, [0, 0, 0, 0])

    def test_a_relative_path(self):
        words = "serve", "--port", free_port(), "--operator", "operators", "--audit", "full"
        server = self.starts(program("autoraid"), *words, cwd=self.folder)
        self.wants([server.line(), server.line()], [f"listening {words[2]}\n", "operators on operators\n"], "the start")
        said = ran(program("ar_client"), "--operator", "operators", text="stop\n", cwd=self.folder)
        self.wants(said, Ended(0, "stopped\n", ""), "a stop")
        self.wants(server.ended(), Ended(0, REPORT, ""), "the server")


class Started(Server):
    """A served array whose program the start script started, as `./install` has it do."""

    PROGRAM = os.path.join(ROOT, "packaging", "start")

    def __init__(self, *words, path):
        before = self.PROGRAM, program("autoraid"), program("ar_client")
        line = "serve", "--port", free_port(), f"--operator={path}", "--audit", "full"
        super(Server, self).__init__(*before, *line, *words)
        self.ending, self.port, self.doors = "closed ok", line[2], {"operator": path}


class Signals(Sockets):
    def test_terminated(self):
        """TERM to the start script is an operator's stop at the socket."""
        server = self.kept_server(Started("0:0:8", path=self.path))
        server.begins()
        self.wants(self.kept(server.log_in(0)).is_ready(), True, "TEST UNIT READY")
        os.kill(server.pid, signal.SIGTERM)
        self.ends(server, [1, 0, 0, 0])
        self.wants(os.listdir(self.folder), [], "the folder after the signal")
