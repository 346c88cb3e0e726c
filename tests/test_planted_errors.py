"""Hosts that verify find what is wrong: beside a served array stands a middleman who plants one error after another.

A host of `bench_load --verify` works through the middleman. Where he plants nothing, or only BUSY, the host has to find
nothing; each error it has to report by the words below, and exit with 1.
"""
import contextlib
import socket
import struct
import threading

from tests.harness import Case, connected, exactly, program

READS, WRITES, CAPACITY = (0x28, 0x88), (0x2A, 0x8A), 0x25
SECTORS, REQUESTS = 100, 400
# Errors are planted from this request on.
FROM = 100


def frame(link):
    head = exactly(link, 4)
    if len(head) < 4:
        raise EOFError
    return head + exactly(link, struct.unpack(">I", head)[0])


def ask(request, far):
    far.sendall(request)
    return frame(far)


def code(request):
    return request[13]


def reply(request, status, sense=b"", payload=b""):
    """A reply to a request in the array's place."""
    rest = request[4:12] + bytes([status, len(sense)]) + sense + payload
    return struct.pack(">I", len(rest)) + rest


def check(request, key, asc, ascq):
    return reply(request, 2, bytes([0x70, 0, key, 0, 0, 0, 0, 10, 0, 0, 0, 0, asc, ascq, 0, 0, 0, 0]))


def changed(data, at):
    return data[:at] + bytes([data[at] ^ 1]) + data[at + 1 :]


# Each error answers a request, given its number and the array.


def nothing(_number, request, far):
    return ask(request, far)


def wrong_byte(_number, request, far):
    said = ask(request, far)
    return changed(said, len(said) - 100) if code(request) in READS and len(said) > 512 else said


def lost_write(_number, request, far):
    return reply(request, 0) if code(request) in WRITES and len(request) > 1000 else ask(request, far)


def beside(_number, request, far):
    """A WRITE of one sector goes to the one beside it."""
    is_meant = code(request) == 0x2A and len(request) == 29 + 512 and request[18] < 98
    return ask(changed(request, 18), far) if is_meant else ask(request, far)


def short_read(_number, request, far):
    said = ask(request, far)
    return reply(request, 0, payload=said[14:-512]) if code(request) in READS and len(said) > 1000 else said


def attention(number, request, far):
    return check(request, 6, 0x2A, 9) if number == FROM else ask(request, far)


def failed(_number, request, far):
    return check(request, 4, 0x44, 0) if code(request) in READS else ask(request, far)


def capacity(_number, request, far):
    said = ask(request, far)
    return changed(said, 17) if code(request) == CAPACITY else said


def accepted(_number, request, far):
    """What the array refuses is reported as done."""
    said = ask(request, far)
    return reply(request, 0) if said[12] == 2 else said


def other_tag(_number, request, far):
    return changed(ask(request, far), 11)


def closed(_number, _request, _far):
    raise EOFError


def busy(number, request, far):
    return reply(request, 8) if number % 10 == 5 else ask(request, far)


def stand_between(near, far, planted):
    """Passes a session on, with an error planted."""
    with near, far, contextlib.suppress(EOFError, OSError):
        far.sendall(exactly(near, 9))
        near.sendall(exactly(far, 1))
        number = 0
        while True:
            request, number = frame(near), number + 1
            near.sendall((planted if number >= FROM else nothing)(number, request, far))


class PlantedErrors(Case):
    def through(self, planted):
        """How a host that verifies ends whose session goes through a middleman, and the first line that it prints."""
        server = self.serve("--sessions", "1", "--extents", "64", f"0:0:{SECTORS}", doors=())
        with socket.create_server(("127.0.0.1", 0)) as door:
            door.settimeout(30)
            port = door.getsockname()[1]
            words = ["--verify", "--port", port, "--hosts", "1", "--sectors", SECTORS, "--requests", REQUESTS]
            host = self.starts(program("bench_load"), *words)
            links = door.accept()[0], connected(server.port)
            threading.Thread(target=stand_between, args=(*links, planted), daemon=True).start()
            ended = host.ended()
        return ended.status, ended.out

    def finds_nothing(self, planted):
        status, said = self.through(planted)
        self.wants(status, 0, f"a host that has to find nothing, and said {said!r}")

    def finds(self, planted, words):
        status, said = self.through(planted)
        is_found = status == 1 and words in said.split("\n")[0]
        self.holds(is_found, f"status 1, and {words!r} in the first line", (status, said))

    def test_no_error(self):
        self.finds_nothing(nothing)

    def test_busy(self):
        self.finds_nothing(busy)

    def test_wrong_byte(self):
        self.finds(wrong_byte, "of no write")

    def test_lost_write(self):
        self.finds(lost_write, "of host 0 LUN 0")

    def test_write_beside(self):
        self.finds(beside, "of host 0 LUN 0")

    def test_short_read(self):
        self.finds(short_read, "bytes, found")

    def test_unit_attention(self):
        self.finds(attention, "CAPACITY DATA HAS CHANGED: had 100 sectors, found 100")

    def test_failed_read(self):
        self.finds(failed, "wanted good, found check 04/44/00")

    def test_wrong_capacity(self):
        self.finds(capacity, "wanted last 99 of 512 bytes, found last 98 of 512")

    def test_refused_reported_as_done(self):
        self.finds(accepted, ", found good")

    def test_other_tag(self):
        self.finds(other_tag, "session fault WrongTag")

    def test_closed_session(self):
        self.finds(closed, "session fault Cut")
