"""Attackers of a served array: threads that keep no rule at any of its doors, beside those whom it serves.

    attackers = Attackers(server, seed, seat=3, orders=[("replace 1", "refused E3 NotOut")])
    ..
    attackers.end(case)      # ends them, and looks that each attack has happened, and that no answer was wrong

An attack is made again and again, with pauses, until they are ended or the server has ended. It has happened where it
was answered as the case of this single attack wants; it is cut off where its connection was closed before, as at a door
that is full. They have at most some 130 connections at once, to 127.0.0.1 or the operators' socket. They log in as the
host `seat` alone, who only reads: sessions of all other hosts have to be open until the service ends (`is_ending`), for
logins as these are wanted to be refused. `orders` are an operator's, with the refusal that is wanted of each.
"""
import collections
import http.client
import random
import socket
import threading
import time

from tests.harness import ACCEPTED, CHECK, GOOD, HOSTS, LOGIN, PATIENCE, REFUSED, TEST_UNIT_READY, Host, Initiator
from tests.harness import Operator, answered, closed_by_faults, connected, frame, read_10, reset, sends_slowly, write_10
from tests.test_bad_frames import ALL_ONES, HALF_A_FRAME, LARGEST, PART_OF_A_WRITE, TOO_LARGE, TOO_SMALL
from tests.test_bad_frames import announces, fill
from tests.test_bad_pdus import LOGINS, NO_PDUS, UNKNOWN_OPCODES, announces_most, is_refusal, login_request
from tests.test_http_clients import BAD
from tests.test_operators import CUT, FAULTY, NO_TEXT
from tests.test_timeouts import SLOW_HEAD

# Connections at once that say nothing: more than the door accepts, or as many as it waits for.
CROWDS = {"hosts": 70, "iscsi": 10, "operator": 6, "http": 10}
# What comes a byte at a time.
SLOWLY = {"hosts": LOGIN, "iscsi": login_request(), "operator": b"health" * 3, "http": SLOW_HEAD}
# What is asked and not read, this often at most.
UNREAD = {"operator": (b"groups\npicture\n", 500), "http": (b"GET /picture.svg HTTP/1.1\r\nHost: localhost\r\n\r\n", 1)}
# Sectors of a READ whose answer isn't read: LUN 0 of the attackers' host has as many at least.
SECTORS = 128
# Seconds for which an attacker says or reads nothing, and between two attacks of one thread.
HOLDS, PAUSE = 2, 0.1
TOO_MANY = "fault: too many operators"


class WrongAnswer(Exception):
    """An attack was answered otherwise than it is to be."""


def expects(got, *wanted):
    """Looks at an answer. One that doesn't come, or that the door is full, is that of an attack that is cut off."""
    if not got or got in (TOO_MANY, f"{TOO_MANY}\n"):
        raise ConnectionError(f"cut off: {got!r}")
    if got not in wanted:
        raise WrongAnswer(f"{got!r}, and not one of {wanted}")


def expects_none(got):
    """Looks that nothing was answered."""
    if got:
        raise WrongAnswer(f"{got!r}, and not nothing")


class Attackers:
    """Attackers at all doors of a server, from now until their `end`."""

    def __init__(self, server, seed, seat, orders):
        self.server, self.seed, self.seat = server, seed, seat
        self.doors = {"hosts": server.port, **server.doors}
        self.is_over, self.is_ending, self.names, self.threads = threading.Event(), False, [], []
        # How often each attack has happened, and was cut off; which answers were wrong, before the service ends.
        self.happened, self.cut_off, self.wrong = collections.Counter(), collections.Counter(), []
        for attacks in self.at_hosts(), self.at_initiators(), self.at_operators(), self.at_http(), self.seated():
            self.begin(attacks)
        self.begin([("iscsi: discovery that holds on", self.discovery_that_holds_on)])
        self.begin([("operator: questions without end", self.questions_without_end)])
        self.begin([("http: looks without end", self.looks_without_end)])
        for door in self.doors:
            for attack in self.at(door):
                self.begin([attack])
        self.orders("orders that are refused", orders)

    def begin(self, attacks):
        """Begins to make these attacks, in a thread of their own."""
        self.names += [name for name, _ in attacks]
        self.threads.append(threading.Thread(target=self.attack, args=(attacks,), name=attacks[0][0], daemon=True))
        self.threads[-1].start()

    def attack(self, attacks):
        """Makes each of these attacks in turn, in an order that is drawn again for each round."""
        drawn = random.Random(f"{self.seed} {attacks[0][0]}")
        while True:
            for name, call in drawn.sample(attacks, len(attacks)):
                if self.is_over.wait(drawn.uniform(0, 2 * PAUSE)) or not self.server.is_running():
                    return
                try:
                    call(drawn)
                    self.happened[name] += 1
                except (OSError, http.client.HTTPException):
                    self.cut_off[name] += 1
                except Exception as fault:
                    # (they go on, and the case fails at their end)
                    self.wrong += [] if self.is_ending else [(name, repr(fault))]

    def missing(self):
        """The attacks that have never happened, and how often they were cut off."""
        return {name: self.cut_off[name] for name in self.names if not self.happened[name]}

    def end(self, case):
        """Ends them, and looks that each attack has happened, and that none was answered wrongly."""
        self.is_over.set()
        for thread in self.threads:
            thread.join(PATIENCE)
        case.wants([thread.name for thread in self.threads if thread.is_alive()], [], "attackers that don't end")
        case.wants(self.wrong, [], "attacks that were answered wrongly")
        case.wants(self.missing(), {}, "attacks that never happened, and how often they were cut off")

    # At any door

    def at(self, door):
        """Attacks that are the same at each door. Each is to have its own thread."""
        yield f"{door}: says nothing", lambda drawn: self.says_nothing(door)
        yield f"{door}: drops", lambda drawn: self.drops(door, drawn)
        yield f"{door}: a byte at a time", lambda drawn: self.a_byte_at_a_time(door)
        if door in UNREAD:
            yield f"{door}: doesn't read", lambda drawn: self.does_not_read(door)

    def says_nothing(self, door):
        crowd = []
        try:
            crowd += [connected(self.doors[door])]
            while len(crowd) < CROWDS[door] and not self.is_over.is_set():
                crowd += [connected(self.doors[door])]
            self.is_over.wait(HOLDS)
        finally:
            for link in crowd:
                link.close()
        # (others are to get in, too)
        self.is_over.wait(HOLDS)

    def drops(self, door, drawn):
        for _ in range(10):
            link = connected(self.doors[door])
            drawn.choice([reset, socket.socket.close])(link)

    def a_byte_at_a_time(self, door):
        with connected(self.doors[door]) as link:
            sends_slowly(link, SLOWLY[door], is_over=self.is_over)

    def does_not_read(self, door):
        """Asks, and reads nothing until what lies between the two is full, and for some time more."""
        sent, most = UNREAD[door]
        with connected(self.doors[door]) as link:
            link.setsockopt(socket.SOL_SOCKET, socket.SO_RCVBUF, 2048)
            link.settimeout(0.5)
            try:
                for _ in range(most):
                    link.sendall(sent)
            except TimeoutError:
                pass
            self.is_over.wait(HOLDS)
        self.is_over.wait(HOLDS)

    # At the door of hosts

    def at_hosts(self):
        return [
            ("hosts: garbage", self.garbage_for_a_login),
            ("hosts: half a login", self.half_a_login),
            ("hosts: a host in use", lambda drawn: self.logs_in(self.others(drawn))),
            ("hosts: no host", lambda drawn: self.logs_in(drawn.randrange(HOSTS, 256))),
        ]

    def others(self, drawn):
        """A host whose session is open."""
        return drawn.choice([host for host in range(HOSTS) if host != self.seat])

    def garbage_for_a_login(self, drawn):
        with connected(self.server.port) as link:
            link.sendall(drawn.randbytes(4096))
            expects(link.recv(1), REFUSED)

    def half_a_login(self, drawn):
        expects_none(answered(self.server.port, LOGIN[: drawn.randrange(9)]))

    def logs_in(self, number):
        host = Host(self.server.port, number)
        host.close()
        expects(host.greeting, REFUSED)

    # In a session of the host that they have, over frames and over iSCSI in turn

    def seated(self):
        sends = {
            "half a frame": HALF_A_FRAME,
            "part of a WRITE": PART_OF_A_WRITE,
            "a length too small": announces(TOO_SMALL),
            "the largest length": announces(LARGEST, 1000),
            "a length too large": announces(TOO_LARGE),
            "a length of all ones": announces(ALL_ONES),
        }
        frames = [
            (f"frames: {name}", lambda drawn, sent=sent: self.sends_and_leaves(drawn, sent))
            for name, sent in sends.items()
        ]
        return frames + [
            ("frames: byte by byte", self.byte_by_byte),
            ("frames: commands that are refused", self.refused_commands),
            ("frames: doesn't read", self.host_that_does_not_read),
            ("iscsi: unknown opcodes", self.unknown_opcodes),
            ("iscsi: data that are too long", self.data_that_are_too_long),
            ("iscsi: a WRITE without its data", self.write_without_its_data),
            ("iscsi: doesn't read", self.initiator_that_does_not_read),
        ]

    def takes_the_seat(self):
        """A session over frames."""
        host = self.server.log_in_again(self.seat)
        with closed_by_faults(host):
            expects(host.greeting, ACCEPTED)
        return host

    def sends_and_leaves(self, drawn, sent):
        """Sends what no frame is, and resets the connection, or ends it and looks that nothing is answered."""
        with self.takes_the_seat().link as link:
            link.sendall(sent)
            if drawn.random() < 0.5:
                reset(link)
                return
            link.shutdown(socket.SHUT_WR)
            expects_none(link.recv(1))

    def byte_by_byte(self, _drawn):
        host = self.takes_the_seat()
        with host.link:
            sends_slowly(host.link, frame(9, TEST_UNIT_READY), pause=0.005, is_over=self.is_over)
            # (its unit may report that it has grown)
            expects(host.receives()[:2], (9, GOOD), (9, CHECK))

    def refused_commands(self, drawn):
        host = self.takes_the_seat()
        with host.link:
            for block in read_10(0xFFFFFF00, 1), read_10(0, 65535), b"\xFF" * 6, b"\xC0" + drawn.randbytes(5):
                expects(host.asks(block).status, CHECK)

    def host_that_does_not_read(self, _drawn):
        host = self.takes_the_seat()
        with host.link:
            fill(host, SECTORS)
            self.is_over.wait(PAUSE)
            reset(host.link)

    def unknown_opcodes(self, _drawn):
        initiator = self.server.initiator(self.seat)
        with initiator.link:
            for opcode in UNKNOWN_OPCODES:
                initiator.send(opcode, 0x80)
                said = initiator.receive()
                expects(said and (said.opcode, said.response, said.data[0]), (0x3F, 0x05, opcode))

    def data_that_are_too_long(self, drawn):
        initiator = self.server.initiator(self.seat)
        with initiator.link:
            initiator.send(drawn.choice([0x00, 0x01, 0x04, 0x05]), 0x80, data=bytes(4096), size=0xFFFFFF)
            self.is_over.wait(PAUSE)

    def write_without_its_data(self, _drawn):
        """Its data are asked for (R2T), and never come."""
        initiator = self.server.initiator(self.seat)
        with initiator.link:
            # (the unit reports first that the session is new, and whether it has grown)
            for _ in range(3):
                initiator.asks(TEST_UNIT_READY)
            initiator.sends(write_10(0, 2), flags=0xA1, expected=1024)
            said = initiator.receive()
            expects(said and said.opcode, 0x31)
            reset(initiator.link)

    def initiator_that_does_not_read(self, _drawn):
        initiator = self.server.initiator(self.seat)
        with initiator.link:
            initiator.link.setsockopt(socket.SOL_SOCKET, socket.SO_RCVBUF, 2048)
            for _ in range(16):
                initiator.sends(read_10(0, SECTORS), flags=0xC1, expected=SECTORS * 512)
            self.is_over.wait(HOLDS)

    # At the door of initiators

    def at_initiators(self):
        logins = [
            (f"iscsi: {what}", lambda drawn, login=login: self.refused_login(*login)) for what, *login in LOGINS
        ]
        return logins + [
            ("iscsi: no PDUs", self.no_pdus),
            ("iscsi: half a login", self.half_a_login_request),
            ("iscsi: 16 MiB announced", self.longest_data_announced),
            ("iscsi: discovery that doesn't read", self.discovery_that_does_not_read),
        ]

    def refused_login(self, pairs, how, status):
        initiator = Initiator(self.server.iscsi_port)
        with initiator.link:
            said = initiator.log_in(*pairs, **how)
            expects(said and said.login_status.hex(), status)

    def no_pdus(self, drawn):
        said = answered(self.server.iscsi_port, drawn.choice(NO_PDUS))
        if not is_refusal(said):
            raise WrongAnswer(f"{said[:60]!r}, and no refusal")

    def half_a_login_request(self, drawn):
        whole = login_request()
        expects_none(answered(self.server.iscsi_port, whole[: drawn.randrange(len(whole))]))

    def longest_data_announced(self, _drawn):
        initiator = Initiator(self.server.iscsi_port)
        with initiator.link:
            announces_most(initiator)
            self.is_over.wait(PAUSE)

    def for_discovery(self):
        initiator = Initiator(self.server.iscsi_port)
        with closed_by_faults(initiator):
            said = initiator.discovers()
            expects(said and said.login_status, b"\0\0")
        return initiator

    def discovery_that_holds_on(self, _drawn):
        """It is asked for answers until it ends, after ten seconds at most."""
        initiator = self.for_discovery()
        with initiator.link:
            while not self.is_over.wait(0.5) and initiator.ping(b"still here"):
                pass

    def discovery_that_does_not_read(self, _drawn):
        initiator = self.for_discovery()
        with initiator.link:
            initiator.link.setsockopt(socket.SOL_SOCKET, socket.SO_RCVBUF, 2048)
            initiator.link.settimeout(0.5)
            try:
                for _ in range(500):
                    initiator.send(0x40, 0x80, (0xFFFFFFFF, 1, initiator.exp_stat_sn), bytes(4096), tag=0x5555)
            except TimeoutError:
                pass

    # At the door of operators

    def orders(self, name, orders):
        """Begins to give orders, each with the refusal that is wanted."""
        self.begin([(f"operator: {name}", lambda drawn: self.says(drawn, orders))])

    def at_operators(self):
        texts = [(f"operator: {name}", lambda drawn, case=case: self.no_text(*case)) for name, *case in NO_TEXT]
        faulty = [
            (f"operator: {fault}", lambda drawn, fault=fault: self.faulty_lines(drawn, fault)) for fault in FAULTY
        ]
        return [*texts, *faulty, ("operator: a line that is cut", self.cut_line)]

    def faulty_lines(self, drawn, fault):
        self.says(drawn, [(line, f"fault: {fault}") for line in FAULTY[fault]])

    def no_text(self, sent, wanted):
        expects(answered(self.server.operator_port, sent).decode(), wanted)

    def cut_line(self, drawn):
        lines = answered(self.server.operator_port, drawn.choice(CUT).encode()).decode().splitlines()
        expects(lines and lines[-1], "fault: cut line")

    def says(self, drawn, said):
        """Says some lines, each of which has an answer of one line."""
        operator = Operator(self.server.operator_port)
        try:
            for line, wanted in drawn.sample(said, len(said)):
                expects(operator.answer_to(f"{line}\n".encode()), f"{wanted}\n")
        finally:
            operator.close()

    def questions_without_end(self, drawn):
        """Asks for what takes longest, and reads it, without a pause."""
        operator, begun = Operator(self.server.operator_port), time.monotonic()
        try:
            while time.monotonic() - begun < HOLDS and not self.is_over.is_set():
                operator.asks(drawn.choice(["picture", "groups", "levels 0 0", "counts", "sessions", "usage", "disks"]))
        finally:
            operator.close()
        self.is_over.wait(HOLDS)

    # At the door of HTTP

    def looks_without_end(self, drawn):
        begun = time.monotonic()
        while time.monotonic() - begun < HOLDS and not self.is_over.is_set():
            expects(self.server.get(drawn.choice(["/picture.svg", "/metrics", "/status.json", "/"]))[0], 200)
        self.is_over.wait(HOLDS)

    def at_http(self):
        return [(f"http: {name}", lambda drawn, case=case: self.bad_request(*case)) for name, case in BAD.items()]

    def bad_request(self, request, code):
        expects(answered(self.server.http_port, request)[9:12], code)
