"""Seats of hosts, and connections of operators: each is given back, and can be taken again; several at once."""
import threading
import time

from tests.harness import ACCEPTED, REFUSED, TARGET, Case, Initiator, connected, rest_of, untimed, waited


class Seats(Case):
    def setUp(self):
        super().setUp()
        self.server = self.serve("--extents", "16", "0:0:24", "1:0:8", doors=("operator", "iscsi"))

    def uses(self, number):
        """A session of a host that is answered, and closed."""
        host = self.server.log_in_again(number)
        self.wants((host.greeting, host.is_ready()), (ACCEPTED, True), f"a session of host {number}")
        host.close()

    def attends(self, number):
        """The same over iSCSI."""
        initiator = self.server.initiator(number)
        said = self.server.answers_to("sessions\n").splitlines()[0]
        self.wants(said, f"host {number} frames 0 read 0 written 0", "it, without what the session before it has done")
        # (its first command reports that the session is new)
        initiator.asks(bytes(6))
        self.wants(initiator.asks(bytes(6))[1].status, 0, f"TEST UNIT READY of initiator {number}, its second")
        initiator.close()

    def test_ten_sessions_in_turn(self):
        for _ in range(10):
            self.uses(0)
        self.wants(self.server.wait_for_none(), "", "sessions once all have left")
        self.stops(self.server, [10, 0, 0, 0])

    def test_sessions_over_both_in_turn(self):
        """Frames, then iSCSI, then frames: each gives the seat back."""
        for _ in range(3):
            self.uses(0)
            self.wants(self.server.wait_for_none(), "", "sessions after one over frames")
            self.attends(0)
            self.wants(self.server.wait_for_none(), "", "sessions after one over iSCSI")
        self.stops(self.server)

    def test_two_sessions_at_once(self):
        one, other = self.kept(self.server.log_in(0)), self.kept(self.server.log_in(1))
        for _ in range(5):
            self.wants((one.is_ready(), other.is_ready()), (True, True), "two sessions, in turn")
        for host in one, other:
            host.close()
        self.stops(self.server, [5, 5, 0, 0])


class OperatorsInTurn(Case):
    def test_operators_in_turn(self):
        """Twenty in turn are all answered: none is counted once it has left."""
        server = self.serve()
        for number in range(20):
            said = waited(lambda: server.answers_to("health\n"), "whole\n", seconds=10)
            self.wants(said, "whole\n", f"operator {number}")
        self.stops(server, [0, 0, 0, 0])

    def test_a_fifth_and_then_another(self):
        server = self.serve()
        operators = [self.kept(server.operator()) for _ in range(4)]
        for operator in operators:
            self.wants(operator.answer_to(b"health\n"), "whole\n", "one of four")
        fifth = self.kept(server.operator())
        self.wants(rest_of(fifth.link), b"fault: too many operators\n", "a fifth")
        operators.pop().close()
        said = waited(lambda: server.answers_to("health\n"), "whole\n", seconds=10)
        self.wants(said, "whole\n", "the next, once one has left")
        said = [operator.answer_to(b"health\n") for operator in operators]
        self.wants(said, ["whole\n"] * 3, "the others, all the while")
        self.stops(server, [0, 0, 0, 0])


class Refusals(Case):
    def test_who_is_refused_is_logged(self):
        """A line a second at most for each door."""
        server = self.serve("0:0:8", doors=("operator", "iscsi"))
        operators = [self.kept(server.operator()) for _ in range(4)]
        for operator in operators:
            self.wants(operator.asks("health"), ["whole"], "each of four operators")
        host, begun = self.kept(server.log_in(0)), time.monotonic()
        for _ in range(20):
            self.wants(server.log_in(0).greeting, REFUSED, "a second session of a host")
        self.wants(server.answers_to(""), "fault: too many operators\n", "a fifth operator")
        initiator = self.kept(Initiator(server.iscsi_port))
        said = initiator.log_in("InitiatorName=iqn.x", f"TargetName={TARGET}0")
        self.holds(said.login_status != b"\0\0", "an initiator of a host in use is refused", said)
        passed = time.monotonic() - begun
        host.close()
        self.wants(operators[0].answer_to(b"stop\n"), "stopped\n", "a stop")
        lines = untimed(self.ends(server, [0, 0, 0, 0], error=None).error).splitlines()
        who = [line.removeprefix("[WARN  autoraid] ") for line in lines]
        wanted = {"a host was refused: it has a session", "an operator was refused: four others converse"}
        self.wants(set(who), {*wanted, "an initiator was refused: its host is in use"}, "the lines")
        self.holds(len(who) <= 3 * (passed + 2), "a line a second at most for each door", (who, passed))


class Silence(Case):
    """Who hasn't logged in makes room for who comes."""

    def comes_in(self, begun, what):
        passed = time.monotonic() - begun
        self.holds(passed < 20, f"{what} within 20 s", f"{passed:.1f} s")

    def silent_operators(self, count):
        """An operator who has asked stays, beside others who say nothing; and the next who asks gets in."""
        server = self.serve()
        first = self.kept(server.operator())
        self.wants(first.asks("health"), ["whole"], "the first operator")
        for _ in range(count):
            self.kept(connected(server.operator_port))
        begun = time.monotonic()
        self.wants(server.answers_to("health\n"), "whole\n", f"an operator after {count} who say nothing")
        self.comes_in(begun, "its answer")
        self.wants(first.asks("health"), ["whole"], "the first operator again")
        self.stops(server, [0, 0, 0, 0])

    def test_four_silent_operators(self):
        self.silent_operators(4)

    def test_a_hundred_silent_operators(self):
        self.silent_operators(100)

    def test_silent_hosts(self):
        server = self.serve("--login-timeout", "60", "0:0:8")
        for _ in range(100):
            self.kept(connected(server.port))
        begun = time.monotonic()
        host = self.kept(server.log_in(0))
        self.wants((host.greeting, host.is_ready()), (ACCEPTED, True), "a host after 100 that say nothing")
        self.comes_in(begun, "its login")
        self.stops(server, [1, 0, 0, 0])

    def test_idle_discovery(self):
        """Sessions for discovery, as many as there are threads, and connections that haven't logged in."""
        server = self.serve("0:0:8", doors=("operator", "iscsi"))
        for number in range(16):
            initiator = self.kept(Initiator(server.iscsi_port))
            if number % 2:
                said = initiator.discovers()
                self.wants(said.login_status, b"\0\0", f"discovery {number}")
        begun = time.monotonic()
        initiator = self.kept(Initiator(server.iscsi_port))
        said = initiator.log_in("InitiatorName=iqn.x", f"TargetName={TARGET}0")
        self.wants(said and said.login_status, b"\0\0", "the login of an initiator after them")
        self.comes_in(begun, "its login")
        self.stops(server)


class Orders(Case):
    """What a refused order leaves as it was."""

    def test_refused_order_is_no_event(self):
        server = self.serve("--extents", "16", doors=("operator", "http"))
        self.wants(server.answers_to("make 0 0 99999999\n")[:10], "refused M2", "a unit that is too large")
        self.wants(server.status_json()["events"], [], "what has happened")
        self.wants(server.answers_to("make 0 0 8\n"), "ok\n", "a unit that fits")
        self.wants([event["kind"] for event in server.status_json()["events"]], ["unit_made"], "what has happened then")
        self.stops(server, [0, 0, 0, 0])

    def fails_alone(self, server, disk):
        """Looks that this disk fails as blocks are written, and no other."""
        host = self.kept(server.log_in(0))
        for block in range(16):
            host.writes(2 * block, b"f" * 1024)
        self.wants(server.answers_to("health\n"), f"out {disk}\n", "health after WRITEs to all disks")

    def test_refused_replacement_leaves_the_fuse(self):
        server = self.serve("0:0:32")
        self.wants(server.answers_to("fail 3 0\nreplace 3\n"), "ok\nrefused E3 NotOut\n", "a disk that isn't out")
        self.fails_alone(server, 3)

    def test_refused_disk_leaves_the_fuse(self):
        server = self.serve("--disks", "12", "--extents", "2", "0:0:32")
        said = server.answers_to("fail 0 0\nadd\n")
        self.holds(said.startswith("ok\nrefused E"), "a thirteenth disk is refused", said)
        self.fails_alone(server, 0)

    def longest_wait_beside(self, server, host, order):
        """Gives this order while a host asks without a pause; its longest command, and the order's seconds."""
        waits, done = [], threading.Event()

        def asks():
            while not done.is_set():
                begun = time.monotonic()
                host.is_ready()
                waits.append(time.monotonic() - begun)

        thread = threading.Thread(target=asks)
        thread.start()
        begun = time.monotonic()
        said = server.answers_to(order)
        took = time.monotonic() - begun
        done.set()
        thread.join()
        self.wants(said, "ok\n", order)
        return max(waits), took

    def test_hosts_do_not_wait_for_a_new_disk(self):
        """A disk of 256 MiB is allocated before the array is locked for it; else some command always waits for it."""
        server = self.serve("--disks", "4", "--geometry", "paper", "--extents", "256", "0:0:128")
        host, seen = self.kept(server.log_in(0)), []
        for _ in range(6):
            longest, took = self.longest_wait_beside(server, host, "add\n")
            seen.append((longest, took))
            if longest < took / 4:
                break
        longest, took = seen[-1]
        self.holds(longest < took / 4, "a new disk during which no command takes a quarter of its time", seen)
        self.stops(server)

    def test_new_disk_begins_without_a_fuse(self):
        server = self.serve("0:0:32")
        self.wants(server.answers_to("out 1\nfail 1 0\nreplace 1\n"), "ok\nok\nok\n", "a disk that is replaced")
        said = waited(lambda: server.answers_to("health\n"), "whole\n")
        self.wants(said, "whole\n", "health once it is rebuilt")
        self.stops(server, [0, 0, 0, 0])
