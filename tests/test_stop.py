"""An operator's `stop`: beside hosts that are busy, that read slowly, that watch; beside crowds at a door, and other
operators; with an output that can't be written; and signals to the start script, which passes them on as a `stop`."""
import contextlib
import os
import resource
import signal
import socket
import threading
import time

from tests.harness import ROOT, Case, Ended, Server, exactly, read_10


class Stop(Case):
    def test_under_load(self):
        """Four hosts that ask without pause lose no reply that they are owed."""
        server, counts = self.serve(*(f"{host}:0:8" for host in range(4))), [0] * 4

        def ask(number):
            host = server.log_in(number)
            with contextlib.suppress(OSError):
                while host.is_ready():
                    counts[number] += 1
            host.close()

        threads = [threading.Thread(target=ask, args=(number,)) for number in range(4)]
        for thread in threads:
            thread.start()
        time.sleep(1)
        said = server.answers_to("stop\n")
        for thread in threads:
            thread.join(30)
        self.wants(said, "stopped\n", "a stop under load")
        self.ends(server, counts)
        self.holds(min(counts) > 20, "each host had more than 20 replies", counts)

    def test_beside_a_slow_reader(self):
        """A host that takes a reply of 32 MiB a few bytes at a time doesn't hold up a stop."""
        server = self.serve("--geometry", "paper", "--extents", "16", "0:0:65535")
        host, has_stopped = self.kept(server.log_in(0)), threading.Event()
        host.sends(read_10(0, 65535))

        def take_slowly():
            with contextlib.suppress(OSError):
                while not has_stopped.wait(0.01) and host.link.recv(4096):
                    pass

        reader = threading.Thread(target=take_slowly)
        reader.start()
        time.sleep(0.5)
        begun = time.monotonic()
        try:
            self.stops(server, [1, 0, 0, 0])
        finally:
            passed = time.monotonic() - begun
            has_stopped.set()
            reader.join()
        self.holds(4 < passed < 10, "a slow reader is waited for 4 to 10 s", f"{passed:.1f} s")

    def test_beside_an_idle_host(self):
        server = self.serve("0:0:8")
        host = self.kept(server.log_in(0))
        self.wants(host.is_ready(), True, "TEST UNIT READY")
        begun = time.monotonic()
        self.stops(server, [1, 0, 0, 0])
        self.wants(exactly(host.link, 1), b"", "what an idle host receives")
        self.holds(time.monotonic() - begun < 5, "an idle session ends within 5 s", time.monotonic() - begun)

    def test_without_output(self):
        """A stop whose report can't be printed."""
        read_end, write_end = os.pipe()
        server = self.serve(stdout=write_end)
        os.close(write_end)
        os.read(read_end, 64)
        os.close(read_end)
        self.wants(server.answers_to("stop\n"), "fault: write fault\n", "a stop")
        self.wants(server.ended(), Ended(1, "", "write fault\n"), "the server")


class Crowds(Case):
    """Connections that say nothing: more than a door has threads, and more than wait for one."""

    # The descriptors that a crowd takes.
    MOST = 1100

    def setUp(self):
        super().setUp()
        soft, hard = resource.getrlimit(resource.RLIMIT_NOFILE)
        if soft < self.MOST:
            resource.setrlimit(resource.RLIMIT_NOFILE, (self.MOST, hard))

    def comes(self, port):
        """A connection that is on its way. (One to a queue that is full is tried again, until there is room.)"""
        link = self.kept(socket.socket())
        link.setblocking(False)
        link.connect_ex(("127.0.0.1", port))

    def ends_beside(self, door, count):
        """Looks that an operator who is in ends the service within six seconds, whatever is at this door."""
        server = self.serve("0:0:8", doors=("operator", "http", "iscsi"))
        operator = self.kept(server.operator())
        self.wants(operator.asks("health"), ["whole"], "an operator before the crowd")
        for _ in range(count):
            self.comes(server.doors.get(door, server.port))
        time.sleep(1)
        begun = time.monotonic()
        self.wants(operator.answer_to(b"stop\n"), "stopped\n", f"a stop beside {count} at the door {door}")
        self.ends(server, [0, 0, 0, 0], error=None, seconds=20)
        self.holds(time.monotonic() - begun < 6, "the end within six seconds", f"{time.monotonic() - begun:.1f} s")

    def test_200_hosts(self):
        self.ends_beside("hosts", 200)

    def test_1000_hosts(self):
        self.ends_beside("hosts", 1000)

    def test_200_initiators(self):
        self.ends_beside("iscsi", 200)

    def test_1000_initiators(self):
        self.ends_beside("iscsi", 1000)

    def test_200_operators(self):
        self.ends_beside("operator", 200)

    def test_1000_operators(self):
        self.ends_beside("operator", 1000)

    def test_200_watchers(self):
        self.ends_beside("http", 200)

    def test_1000_watchers(self):
        self.ends_beside("http", 1000)

    def test_four_stops(self):
        """All four operators say it at once, and each is answered."""
        for _ in range(5):
            server = self.serve("0:0:8")
            operators = [self.kept(server.operator()) for _ in range(4)]
            for operator in operators:
                self.wants(operator.asks("health"), ["whole"], "each of four operators")
            for operator in operators:
                operator.link.sendall(b"stop\n")
            self.wants([operator.lines.read() for operator in operators], ["stopped\n"] * 4, "four stops at once")
            self.ends(server, [0, 0, 0, 0])


class Started(Server):
    """A served array whose program the start script started."""

    PROGRAM = os.path.join(ROOT, "autoraid")


class Signals(Case):
    def test_terminated(self):
        """TERM to the start script alone, as a service manager sends it."""
        server = self.kept_server(Started("0:0:8"))
        self.wants(self.kept(server.log_in(0)).is_ready(), True, "TEST UNIT READY")
        os.kill(server.pid, signal.SIGTERM)
        self.ends(server, [1, 0, 0, 0])

    def test_interrupted(self):
        """INT to all processes of a terminal, as Ctrl-C sends it."""
        # (what is started in the background ignores INT; a shell misses a signal just before it waits)
        server = self.kept_server(Started("0:0:8", before=("env", "--default-signal=INT")))
        time.sleep(0.5)
        os.killpg(server.pid, signal.SIGINT)
        self.ends(server, [0, 0, 0, 0])

    def test_second_signal(self):
        """A stop waits for a host that takes its reply slowly; a second signal doesn't."""
        server = self.kept_server(Started("--geometry", "paper", "--extents", "16", "0:0:65535"))
        self.kept(server.log_in(0)).sends(read_10(0, 65535))
        time.sleep(0.5)
        os.kill(server.pid, signal.SIGTERM)
        time.sleep(0.5)
        begun = time.monotonic()
        os.kill(server.pid, signal.SIGTERM)
        self.wants(server.ended().status, 128 + signal.SIGKILL, "the start script's status")
        self.holds(time.monotonic() - begun < 2, "a second signal ends it at once", time.monotonic() - begun)
