"""Clients over HTTP that keep no rule, or look without pause, beside a host that is served all the while."""
import threading
import time

from tests.harness import Case, answered, connected, rest_of

# Seconds after which a silent connection is closed, and what may come on top.
LONGEST, SLACK = 2, 3
HEALTH = b"GET /healthz/whole HTTP/1.1\r\nHost: localhost\r\n\r\n"
# What is sent, and the status that answers it.
BAD = {
    "no request": (b"garbage\r\n\r\n", b"400"),
    "no host": (b"GET / HTTP/1.1\r\n\r\n", b"400"),
    "another host": (b"GET / HTTP/1.1\r\nHost: example.org\r\n\r\n", b"421"),
    "another host's port": (b"GET / HTTP/1.1\r\nHost: example.org:80\r\n\r\n", b"421"),
    "a host that begins as this one": (b"GET / HTTP/1.1\r\nHost: 127.0.0.1.example.org\r\n\r\n", b"421"),
    "a host that ends as this one": (b"GET / HTTP/1.1\r\nHost: example-localhost:80\r\n\r\n", b"421"),
    "a long path": (b"GET /" + b"x" * 1_000_000 + b" HTTP/1.1\r\nHost: localhost\r\n\r\n", b"414"),
    "a long field": (b"GET / HTTP/1.1\r\nHost: localhost\r\nX: " + b"x" * 1_000_000 + b"\r\n\r\n", b"431"),
    "content": (b"GET / HTTP/1.1\r\nHost: localhost\r\nContent-Length: 5\r\n\r\nhello", b"413"),
    "all bytes": (bytes(range(256)) * 100, b"400"),
}


class Clients(Case):
    def watched(self, *words):
        server = self.serve(*words, doors=("operator", "http"))
        return server, self.kept(server.log_in(0))

    def test_bad_requests(self):
        server, host = self.watched("0:0:24")
        for name, (request, code) in BAD.items():
            with self.subTest(name):
                said = answered(server.http_port, request)
                self.wants(said[:13], b"HTTP/1.1 " + code + b" ", name)
                self.wants(host.is_ready(), True, "a host beside it")
        host.close()
        self.stops(server, [len(BAD), 0, 0, 0])

    def test_a_thousand_in_turn(self):
        server, host = self.watched("0:0:24")
        begun = time.monotonic()
        said = {answered(server.http_port, HEALTH)[-9:] for _ in range(1000)}
        self.wants(said, {b"\r\n\r\nwhole\n"[-9:]}, "the ends of a thousand answers")
        self.holds(time.monotonic() - begun < 60, "a thousand within a minute", time.monotonic() - begun)
        self.wants(host.is_ready(), True, "a host beside it")
        host.close()
        self.stops(server, [1, 0, 0, 0])

    def test_silent_clients(self):
        """Ten that say nothing: eight are waited for, and the others until these are closed."""
        server, host = self.watched("0:0:24")
        begun = time.monotonic()
        silent = [self.kept(connected(server.http_port)) for _ in range(10)]
        for client in silent[:8]:
            self.wants(rest_of(client), b"", "what a silent client receives")
        passed = time.monotonic() - begun
        self.holds(LONGEST - 1 <= passed < LONGEST + SLACK, "silent clients are closed after 2 s", f"{passed:.1f} s")
        self.wants((host.is_ready(), server.get("/healthz")[0]), (True, 200), "a host and a client after them")
        host.close()
        self.stops(server, [1, 0, 0, 0])

    def test_looks_without_pause(self):
        """A host that asks without pause, and eight clients that do: a look keeps no command waiting for long."""
        server, host = self.watched("--disks", "12", "--extents", "1024", "0:0:30000")
        slowest, commands, is_over, looks = 0, 0, threading.Event(), [0] * 8

        def watch(client):
            while not is_over.is_set():
                server.get("/picture.svg")
                server.get("/metrics")
                looks[client] += 1

        clients = [threading.Thread(target=watch, args=(client,)) for client in range(8)]
        for client in clients:
            client.start()
        begun = time.monotonic()
        while time.monotonic() - begun < 3:
            before = time.monotonic()
            host.is_ready()
            commands += 1
            slowest = max(slowest, time.monotonic() - before)
        is_over.set()
        for client in clients:
            client.join()
        self.holds(min(looks) > 0, "each client had a look", looks)
        self.holds(commands > 20 and slowest < 5, "more than 20 replies, each within 5 s", (commands, slowest))
        host.close()
        self.stops(server, [commands, 0, 0, 0])
