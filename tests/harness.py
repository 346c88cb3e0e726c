"""What cases stand on: programs, served arrays, hosts, clients, operators, initiators of iSCSI, HTTP.

A file tests/test_SUBJECT.py has the cases of one subject, methods of a `Case`:

    class Stop(Case):
        def test_beside_an_idle_host(self):
            server = self.serve("0:0:8", "--disks", "5")      # kept at free ports until the case ends
            host = server.log_in(0)
            self.wants(host.is_ready(), True, "TEST UNIT READY")
            self.stops(server, commands=[1, 0, 0, 0])

    python3 -m unittest -k idle_host      one case, by a part of its name, from the top of the repository
    python3 -m tests [stop ..]            whole files side by side, as the gate runs them

`wants` compares, and a case that fails prints what was wanted and what was got. A case ends after `seconds`, each wait
after PATIENCE; what it started is ended with its process group. Nothing listens but at 127.0.0.1. Programs are those of
crates/NAME/out/NAME, or of the folder that the variable PROGRAMS names.
"""
import collections
import contextlib
import http.client
import json
import os
import re
import resource
import signal
import socket
import struct
import subprocess
import threading
import time
import unittest

ROOT = os.path.dirname(os.path.dirname(os.path.realpath(__file__)))
# Seconds that one wait may take.
PATIENCE = 60
HOSTS = 4
# A line of a server's log: its time, its level, what it says.
LOGGED = re.compile(r"\[(\d{4}-\d\d-\d\dT\d\d:\d\d:\d\dZ) (ERROR|WARN |INFO ) autoraid\] (.+)")
# What a server says on standard error of disks that have failed, and of connections that it has refused.
FAILURES = re.compile(
    r"^\[\S+Z (WARN |ERROR) autoraid\] ((disk \d+|array) failed|an? [\w ]+ was refused): .*\n", re.MULTILINE
)


def program(name):
    """The path of a built program."""
    folder = os.environ.get("PROGRAMS")
    return os.path.join(folder, name) if folder else os.path.join(ROOT, "crates", name, "out", name)


def tests_of(crate):
    """The path of a crate's built tests."""
    folder = os.environ.get("PROGRAMS") or os.path.join(ROOT, "crates", crate, "out")
    return os.path.join(folder, f"{crate}_tests")


def text_of(*path):
    """What a file of the repository has."""
    with open(os.path.join(ROOT, *path), encoding="utf-8") as file:
        return file.read()


def untimed(log):
    """The lines of a server's log without their times."""
    return re.sub(r"^\[[\d:T-]+Z ", "[", log, flags=re.MULTILINE)


# Programs

groups = set()


def end_group(group):
    """Ends a process group."""
    with contextlib.suppress(ProcessLookupError, PermissionError):
        os.killpg(group, signal.SIGKILL)
    groups.discard(group)


def end_all(*_):
    """Ends all that was started, and this program: nothing outlives it."""
    for group in list(groups):
        end_group(group)
    os._exit(1)


Ended = collections.namedtuple("Ended", "status out error")


def limited(limits):
    """A call that sets limits of the system in a new process, such as {resource.RLIMIT_NOFILE: 20}."""
    return lambda: [resource.setrlimit(kind, (most, most)) for kind, most in limits.items()]


def popen(words, *, limits=None, **how):
    """Starts a program in a process group of its own."""
    how = {"stdin": subprocess.DEVNULL, "stdout": subprocess.PIPE, "stderr": subprocess.PIPE, "text": True, **how}
    if limits:
        how["preexec_fn"] = limited(limits)
    started = subprocess.Popen([*map(str, words)], start_new_session=True, **how)
    groups.add(started.pid)
    return started


def ran(*words, text="", seconds=PATIENCE, **how):
    """The status of a program and what it printed: `how` may have limits, a folder (cwd), an environment (env)."""
    running = popen(words, stdin=subprocess.PIPE, **how)
    try:
        out, error = running.communicate(text, timeout=seconds)
    finally:
        end_group(running.pid)
        running.wait()
    return Ended(running.returncode, out, error)


class Output:
    """What a pipe brings, line by line, read in the background."""

    def __init__(self, pipe):
        self.lines, self.is_over, self.came = [], False, threading.Condition()
        self.reader = threading.Thread(target=self.read, args=(pipe,), daemon=True)
        self.reader.start()

    def read(self, pipe):
        with pipe:
            for line in pipe:
                with self.came:
                    self.lines.append(line)
                    self.came.notify_all()
        with self.came:
            self.is_over = True
            self.came.notify_all()

    def line(self, seconds):
        """The next line; '' at the end, or once this many seconds have passed."""
        with self.came:
            self.came.wait_for(lambda: self.lines or self.is_over, seconds)
            return self.lines.pop(0) if self.lines else ""

    def rest(self):
        """All that comes until the end."""
        self.reader.join(PATIENCE)
        with self.came:
            said, self.lines = "".join(self.lines), []
        return said


class Running:
    """A program that goes on while a case does something else."""

    def __init__(self, *words, **how):
        self.process = popen(words, **how)
        self.outputs = [Output(pipe) if pipe else None for pipe in (self.process.stdout, self.process.stderr)]

    @property
    def pid(self):
        return self.process.pid

    def line(self, seconds=PATIENCE):
        """The next line of its standard output."""
        return self.outputs[0].line(seconds)

    def is_running(self):
        return self.process.poll() is None

    def ended(self, seconds=PATIENCE):
        """Waits for its end: its status, and what it printed besides the lines that were asked for."""
        self.process.wait(seconds)
        return Ended(self.process.returncode, *(output.rest() if output else "" for output in self.outputs))

    def kill(self):
        end_group(self.pid)
        self.process.wait()


# Ports and connections

ports = iter(())


def free_port():
    """A port that nothing listens at now, below those that the system gives to connections."""
    global ports
    while True:
        port = next(ports, None)
        if port is None:
            first = 10_000 + os.getpid() * 907 % 19_000
            ports = iter(range(first, first + 900))
            continue
        with socket.socket() as probe, contextlib.suppress(OSError):
            # (a connection that was closed a moment ago doesn't keep a port)
            probe.setsockopt(socket.SOL_SOCKET, socket.SO_REUSEADDR, 1)
            probe.bind(("127.0.0.1", port))
            return port


@contextlib.contextmanager
def closed_by_faults(link):
    """Closes a connection at which something goes wrong."""
    try:
        yield
    except OSError:
        link.close()
        raise


def connected(door):
    """A connection to a port of this machine, or to the Unix socket at a path."""
    if isinstance(door, str):
        link = socket.socket(socket.AF_UNIX)
        link.settimeout(PATIENCE)
        with closed_by_faults(link):
            link.connect(door)
        return link
    link = socket.create_connection(("127.0.0.1", door), timeout=PATIENCE)
    link.setsockopt(socket.IPPROTO_TCP, socket.TCP_NODELAY, 1)
    return link


def exactly(link, count):
    """This many bytes, or fewer where the other side has closed."""
    found = b""
    while len(found) < count and (part := link.recv(count - len(found))):
        found += part
    return found


def rest_of(link):
    """What comes until the other side has closed."""
    said = b""
    with contextlib.suppress(ConnectionResetError):
        while part := link.recv(65536):
            said += part
    return said


def answered(door, sent):
    """What a client that sends these bytes is answered, until the connection is closed."""
    with connected(door) as link:
        with contextlib.suppress(OSError):
            link.sendall(sent)
            link.shutdown(socket.SHUT_WR)
        return rest_of(link)


def sends_slowly(link, text, pause=0.3, is_over=None):
    """Sends a byte at a time, until the other side has closed or an event has come."""
    with contextlib.suppress(OSError):
        for byte in text:
            link.sendall(bytes([byte]))
            if (is_over or threading.Event()).wait(pause):
                return


def reset(link):
    """Closes a connection without announcing its end first."""
    link.setsockopt(socket.SOL_SOCKET, socket.SO_LINGER, struct.pack("ii", 1, 0))
    link.close()


# Hosts, over the array's own framing

LOGIN = b"ARAIDHO1"
ACCEPTED, REFUSED = b"\0", b"\1"
GOOD, CHECK, BUSY = 0, 2, 8


TEST_UNIT_READY = bytes(6)


def read_10(lba, count):
    return struct.pack(">BBIBHB", 0x28, 0, lba, 0, count, 0)


def write_10(lba, count):
    return struct.pack(">BBIBHB", 0x2A, 0, lba, 0, count, 0)


def frame(tag, block, data=b"", lun=0):
    """A request: a length, a tag, a LUN, a command block, the data."""
    return struct.pack(">IQB", 25 + len(data), tag, lun) + block.ljust(16, b"\0") + data


Reply = collections.namedtuple("Reply", "tag status sense data")


class Host:
    """A session of a host; `greeting` is how its login was answered."""

    def __init__(self, port, number, name=LOGIN):
        self.link, self.tag = connected(port), 0
        with closed_by_faults(self.link):
            self.link.sendall(name + bytes([number]))
            self.greeting = exactly(self.link, 1)

    def place(self):
        """The address and the port that it comes from."""
        address, port = self.link.getsockname()
        return f"{address}:{port}"

    def sends(self, block, data=b"", lun=0):
        """Sends a request, and leaves its answer."""
        self.tag += 1
        self.link.sendall(frame(self.tag, block, data, lun))

    def receives(self):
        """The next reply, or None where the session has ended."""
        head = exactly(self.link, 4)
        body = exactly(self.link, struct.unpack(">I", head)[0]) if len(head) == 4 else b""
        if len(body) < 10:
            return None
        tag, status, sense = struct.unpack(">QBB", body[:10])
        return Reply(tag, status, body[10 : 10 + sense], body[10 + sense :])

    def asks(self, block, data=b"", lun=0):
        self.sends(block, data, lun)
        return self.receives()

    def is_ready(self, lun=0):
        """Whether a TEST UNIT READY is answered GOOD."""
        return self.asks(TEST_UNIT_READY, lun=lun) == (self.tag, GOOD, b"", b"")

    def reads(self, lba, count, lun=0):
        return self.asks(read_10(lba, count), lun=lun)

    def writes(self, lba, data, lun=0):
        return self.asks(write_10(lba, len(data) // 512), data, lun)

    def close(self):
        self.link.close()


# Operators


class Operator:
    """An operator's connection."""

    # A line after each one that is asked: its answer says that the one before is whole.
    AFTER, AFTER_IT = "that-was-all", "fault: unknown word\n"

    def __init__(self, door):
        self.link = connected(door)
        self.lines = self.link.makefile("r", encoding="ascii", newline="\n")

    def asks(self, line):
        """The lines of an answer."""
        self.link.sendall(f"{line}\n{self.AFTER}\n".encode())
        answer = []
        while (said := self.lines.readline()) != self.AFTER_IT:
            if not said:
                raise ConnectionError(f"the operator's connection ended after {line!r} and {answer}")
            answer.append(said.rstrip("\n"))
        return answer

    def answer_to(self, sent):
        """The one line that answers these bytes."""
        self.link.sendall(sent)
        return self.lines.readline()

    def waits(self, line, wanted, seconds=PATIENCE):
        """Asks until the answer is this one, and returns the last."""
        begun = time.monotonic()
        while (last := self.asks(line)) != wanted and time.monotonic() - begun < seconds:
            time.sleep(0.01)
        return last

    def commands(self, hosts=HOSTS):
        """How many commands of the first `hosts` hosts the array has counted."""
        return sum(int(line.split()[3]) for line in self.asks("counts")[:hosts])

    def close(self):
        self.lines.close()
        self.link.close()


# Initiators, over iSCSI

TARGET = "iqn.2026-11.example.autoraid:host"


class Pdu(collections.namedtuple("Pdu", "header data")):
    """What a target sent: the basic header segment, and the data segment."""

    def number(self, at):
        return int.from_bytes(self.header[at : at + 4], "big")

    opcode = property(lambda self: self.header[0])
    flags = property(lambda self: self.header[1])
    response = property(lambda self: self.header[2])
    status = property(lambda self: self.header[3])
    login_status = property(lambda self: self.header[36:38])
    tag = property(lambda self: self.number(16))
    stat_sn = property(lambda self: self.number(24))
    exp_cmd_sn = property(lambda self: self.number(28))
    max_cmd_sn = property(lambda self: self.number(32))
    sense = property(lambda self: self.data[2:] if self.opcode == 0x21 else b"")
    # (the sense key, the additional code and its qualifier)
    code = property(lambda self: self.data[4:5] + self.data[14:16])
    pairs = property(lambda self: dict(pair.partition(b"=")[::2] for pair in self.data.split(b"\0") if pair))


class Initiator:
    """A connection to a target, PDU by PDU: `send` and `receive` whatever is wanted, well formed or not."""

    def __init__(self, port):
        self.link = connected(port)
        self.cmd_sn, self.exp_stat_sn = 1, 0
        # What gives headers and padded data their digests: none.
        self.digests = [lambda covered: b""] * 2

    def send(self, opcode, flags=0, words=(), data=b"", lun=0, tag=0, size=None, place=None, ahs=b""):
        """A PDU: `words` are those from byte 20 on, `place` is bytes 8 to 15, `size` what is said of the data."""
        size, place = len(data) if size is None else size, lun << 48 if place is None else place
        header = struct.pack(">BBHIQI", opcode, flags, 0, len(ahs) // 4 << 24 | size, place, tag)
        header += struct.pack(">7I", *words, *[0] * (7 - len(words))) + ahs
        data += bytes(-len(data) % 4)
        self.link.sendall(header + self.digests[0](header) + data + self.digests[1](data))

    def takes(self, count, digest):
        """A header or padded data of this many bytes, which the digest follows that it has to have."""
        covered = exactly(self.link, count)
        wanted = digest(covered)
        found = exactly(self.link, len(wanted))
        if len(covered) == count and found != wanted:
            raise ConnectionError(f"the digest {found.hex()} in place of {wanted.hex()}, of {shown(covered)}")
        return covered

    def receive(self):
        """The next PDU, or None where the connection has ended."""
        header = self.takes(48, self.digests[0])
        if len(header) < 48:
            return None
        size = int.from_bytes(header[5:8], "big")
        said = Pdu(header, self.takes(size + -size % 4, self.digests[1])[:size])
        # (Data-In has a StatSN only with a status, and R2T and a NOP-In that answers nothing none of their own)
        has_status = said.flags & 1 if said.opcode == 0x25 else said.opcode != 0x31
        if has_status and (said.opcode, said.tag) != (0x20, 0xFFFFFFFF):
            self.exp_stat_sn = said.stat_sn + 1 & 0xFFFFFFFF
        return said

    def log_in(self, *pairs, flags=0x87, isid=0x400001370000, tsih=0, size=None):
        """Asks to log in by these pairs, and returns the answer."""
        data = "".join(f"{pair}\0" for pair in pairs).encode()
        self.send(0x43, flags, (0, self.cmd_sn, self.exp_stat_sn), data, place=isid << 16 | tsih, size=size)
        return self.receive()

    def sends(self, block, lun=0, flags=0x81, expected=0, data=b"", opcode=0x01):
        """Sends a SCSI command, with the data that go with it, and leaves its answer. Returns its tag, its CmdSN."""
        words = struct.unpack(">4I", block.ljust(16, b"\0"))
        tag = self.cmd_sn
        self.send(opcode, flags, (expected, tag, self.exp_stat_sn, *words), data, lun, tag)
        self.cmd_sn += not opcode & 0x40
        return tag

    def asks(self, block, lun=0, flags=0x81, expected=0, data=b""):
        """Sends a SCSI command, and returns the data that come and the PDU that has its status."""
        self.sends(block, lun, flags, expected, data)
        found = b""
        while (said := self.receive()) and said.opcode == 0x25:
            found += said.data
            if said.flags & 1:
                break
        return found, said

    def manages(self, function, lun=0, tag=0xFFFFFFFF, opcode=0x42):
        """Sends a task management request, immediate (42h) or in CmdSN's order (02h), and leaves its answer."""
        self.send(opcode, 0x80 + function, (tag, self.cmd_sn, self.exp_stat_sn), lun=lun, tag=0x7777)
        self.cmd_sn += not opcode & 0x40

    def discovers(self):
        """Asks to log in for discovery, and returns the answer."""
        return self.log_in("InitiatorName=iqn.2026-11.example:host", "SessionType=Discovery")

    def ping(self, data=b"", tag=0x5555):
        """Sends a NOP-Out, and returns its answer."""
        self.send(0x40, 0x80, (0xFFFFFFFF, self.cmd_sn, self.exp_stat_sn), data, tag=tag)
        return self.receive()

    def answers(self, ping):
        """Answers a ping of the target: its tag and its LUN come back (RFC 7143, 11.18)."""
        words = ping.number(20), self.cmd_sn, self.exp_stat_sn
        self.send(0x40, 0x80, words, place=int.from_bytes(ping.header[8:16], "big"), tag=0xFFFFFFFF)

    def close(self):
        self.link.close()


# HTTP


def get(port, path, method="GET"):
    """The status of a response, its header fields, and its body."""
    link = http.client.HTTPConnection("127.0.0.1", port, timeout=PATIENCE)
    try:
        link.request(method, path)
        response = link.getresponse()
        return response.status, dict(response.getheaders()), response.read().decode()
    finally:
        link.close()


# Served arrays


class Server(Running):
    """`autoraid serve` with these words, at free ports: that of hosts, if they come by `frames`, and by name those of
    `doors`, which may also have them, or the path of a Unix socket: {"operator": path}.

    It compares transcripts with the history, unless `audit` is "off". With None the option is left out: `ending` is
    then the last line of the report that is wanted. A start takes up to `patience` seconds.
    """

    DOORS = {"operator": "--operator", "http": "--http", "iscsi": "--iscsi"}
    # The doors beside the hosts', as a start names them in this order.
    NAMES = {"iscsi": "iSCSI", "http": "HTTP", "operator": "operators"}
    # None: the built program.
    PROGRAM = None

    def __init__(
        self, *words, doors=("operator",), audit="full", ending=None, before=(), patience=PATIENCE, frames=True, **how
    ):
        self.ending = ending or ("closed ok" if audit == "full" else "closed")
        self.port = free_port() if frames else None
        self.doors = doors if isinstance(doors, dict) else {door: free_port() for door in doors}
        options = [word for door in doors for word in (self.DOORS[door], self.doors[door])]
        options += ["--audit", audit] if audit else []
        options += ["--port", self.port] if frames else []
        line = [self.PROGRAM or program("autoraid"), "serve", *options]
        super().__init__(*before, *line, *words, **how)
        # What a start from a store says that it has done.
        self.recovered = ""
        if how.get("stdout") is None:
            self.begins(patience)

    def begins(self, patience=PATIENCE):
        """Reads the lines by which it says that it listens."""
        first = self.line(patience)
        if first.startswith("recovered "):
            self.recovered, first = first, self.line()
        wanted = [f"{self.NAMES[door]} on {self.doors[door]}\n" for door in self.NAMES if door in self.doors]
        said = [first, *(self.line() for _ in wanted if first)]
        if said != [f"listening {self.port}\n" if self.port else "listening\n", *wanted]:
            self.kill()
            raise ConnectionError(f"the server began with {said!r} and {self.ended()}")

    operator_port = property(lambda self: self.doors["operator"])
    http_port = property(lambda self: self.doors["http"])
    iscsi_port = property(lambda self: self.doors["iscsi"])

    def log_in(self, number):
        """A session of a host."""
        return Host(self.port, number)

    def log_in_again(self, number):
        """The same where the host's last session may not have ended yet: its end is seen a little later."""
        begun = time.monotonic()
        while (host := self.log_in(number)).greeting == REFUSED and time.monotonic() - begun < PATIENCE:
            host.close()
            time.sleep(0.02)
        return host

    def client(self, number, lines):
        """What ar_client prints to these lines as a host, and its status."""
        return ran(program("ar_client"), "--port", self.port, "--host", number, text=lines)

    def operator(self):
        return Operator(self.operator_port)

    def answers_to(self, lines):
        """What an operator is answered to these lines, until the connection ends."""
        return answered(self.operator_port, lines.encode()).decode()

    def get(self, path, method="GET"):
        return get(self.http_port, path, method)

    def status_json(self):
        return json.loads(self.get("/status.json")[2])

    def sample(self, name):
        """The value of a metric, as text; None where it isn't there."""
        found = re.search(rf"^{re.escape(name)} (\d+)$", self.get("/metrics")[2], re.MULTILINE)
        return found and found[1]

    def initiator(self, number):
        """A session over iSCSI with a host's target."""
        initiator = Initiator(self.iscsi_port)
        with closed_by_faults(initiator):
            said = initiator.log_in("InitiatorName=iqn.x", f"TargetName={TARGET}{number}")
            if said is None or said.login_status != b"\0\0":
                raise ConnectionError(f"a login over iSCSI: {said}")
        return initiator

    def resident(self):
        """The memory in KiB that is resident now."""
        return most_resident(self.pid, "VmRSS")

    def wait_for_none(self):
        """Waits until all sessions have ended, and returns those that are left."""
        return waited(lambda: self.answers_to("sessions\n"), "")

    def report(self, commands):
        """What it prints at its end: how many commands of each host it has served, and that each transcript agrees."""
        return "".join(f"host {host} commands {number}\n" for host, number in enumerate(commands)) + f"{self.ending}\n"


def waited(call, wanted, seconds=PATIENCE):
    """Calls until the answer is this one, and returns the last."""
    begun = time.monotonic()
    while (last := call()) != wanted and time.monotonic() - begun < seconds:
        time.sleep(0.02)
    return last


def most_resident(pid, what="VmHWM"):
    """The most memory in KiB that was resident of a process; `VmRSS`: that of now, `VmPeak`: the most of addresses."""
    with open(f"/proc/{pid}/status", encoding="utf-8") as lines:
        return next(int(line.split()[1]) for line in lines if line.startswith(f"{what}:"))


# Cases


class OutOfTime(Exception):
    """A case has taken longer than it may."""


def out_of_time(*_):
    raise OutOfTime


def shown(value):
    """A value as a failing case prints it: its ends where it is long."""
    text = repr(value)
    return text if len(text) <= 3000 else f"{text[:1500]} .. {text[-1500:]}"


class Case(unittest.TestCase):
    """Cases of one subject."""

    # The seconds that each case may take.
    seconds = 120
    # How many comparisons of all cases held.
    held = 0

    def setUp(self):
        signal.signal(signal.SIGTERM, end_all)
        signal.signal(signal.SIGALRM, out_of_time)
        signal.alarm(self.seconds)
        self.addCleanup(signal.alarm, 0)

    def wants(self, got, wanted, what):
        """Compares, and fails with both where they differ."""
        if got != wanted:
            self.fail(f"{what}\n  wanted: {shown(wanted)}\n  got:    {shown(got)}")
        Case.held += 1

    def holds(self, is_so, wanted, got):
        """Fails where a condition, in words, doesn't hold."""
        if not is_so:
            self.fail(f"\n  wanted: {wanted}\n  got:    {shown(got)}")
        Case.held += 1

    def starts(self, *words, **how):
        """A program that goes on until the case ends."""
        running = Running(*words, **how)
        self.addCleanup(running.kill)
        return running

    def serve(self, *words, **how):
        """A served array that is kept until the case ends."""
        return self.kept_server(Server(*words, **how))

    def kept_server(self, server):
        self.addCleanup(server.kill)
        return server

    def kept(self, thing):
        """A connection or a session that is closed at the end of the case."""
        self.addCleanup(thing.close)
        return thing

    def stops(self, server, commands=None, error="", seconds=PATIENCE):
        """Looks that an operator's stop ends a server well, with this many commands of each host in its report."""
        self.wants(server.answers_to("stop\n"), "stopped\n", "an operator's stop")
        self.ends(server, commands, error, seconds)

    def stops_failed(self, server, commands=None):
        """The same of a server whose array has failed: it says so, and its status does."""
        server.ending = "closed, data lost"
        self.wants(server.answers_to("stop\n"), "stopped\n", "an operator's stop")
        self.ends(server, commands, "data lost\n", status=3)

    def ends(self, server, commands=None, error="", seconds=PATIENCE, status=0):
        """Looks at how a server ends: its status, its report, what it wrote to standard error (None: anything)."""
        ended = server.ended(seconds)
        self.wants(ended.status, status, f"the server's status, after {ended.out!r} and {ended.error!r}")
        if commands is None:
            self.wants(ended.out.splitlines()[HOSTS:], [server.ending], "the end of the server's report")
        else:
            self.wants(ended.out, server.report(commands), "the server's report")
        if error is not None:
            # (disks that a case has failed are reported there, too, and whom it has had refused)
            self.wants(FAILURES.sub("", ended.error), error, "the server's standard error")
        return ended
