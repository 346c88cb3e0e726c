"""Each allocation of the built programs is refused in turn, and nothing else comes of it than is promised.

A library of a few lines of C, which is made with `cc` here, stands before the C library's `malloc` and `realloc` and
refuses the n-th call, for every n that a run without it makes. Of a script every line before the first that shows
`busy` or `NoMemory`, or that ends with the fault `no memory`, has to be the one that is wanted; a start that is refused
prints none. Of tests that go on after any one refusal each has to pass.
"""
import contextlib
import http.client
import itertools
import os
import re
import socket
import tempfile
import threading
import time

from tests.harness import BUSY, LOGIN, Case, free_port, program, ran, tests_of, untimed, write_10
from tests.test_scenarios import scenarios_of

REFUSE = r"""
#include <errno.h>
#include <stdio.h>
#include <stdlib.h>

extern void *__libc_malloc(size_t);
extern void *__libc_realloc(void *, size_t);

static long met;

// Threads allocate at once, and none of their calls may go uncounted.
static int is_refused(void) {
    const char *wanted = getenv("REFUSED_ALLOCATION");
    long number = __atomic_add_fetch(&met, 1, __ATOMIC_SEQ_CST);
    if (!wanted || number != atol(wanted)) {
        return 0;
    }
    remove(getenv("NOT_REFUSED"));
    errno = ENOMEM;
    return 1;
}

void *malloc(size_t size) {
    return is_refused() ? NULL : __libc_malloc(size);
}

void *realloc(void *former, size_t size) {
    return is_refused() ? NULL : __libc_realloc(former, size);
}
"""

# Where memory for a cached block is refused, it goes to the disks at once, which these words show.
SHOWS_THE_CACHE = ("levels", "flush")
# How a server may end without serving, once an allocation was refused before it listens, and what it says of one that
# was for a connection.
REFUSALS = ["start fault\n", "no memory\n", "unit 0:0:4 refused M4 NoMemory\n"]
REFUSED = "[WARN  autoraid] a connection was refused: no memory\n"
# The replies BUSY to a host's commands, by operation.
COUNTED_BUSY = re.compile(r'^autoraid_host_commands_total\{host="0",operation="\w+",status="busy"\} (\d+)$', re.M)


class Script:
    """A scenario: its lines, and for each what is printed."""

    def __init__(self, file, name, options):
        rows, _ = next(it for it in scenarios_of(file) if it.name == name).script()
        self.options, self.lines, self.wanted = options, *zip(*rows)

    def judged(self, status, out, error):
        """What is wrong with a run, or None; and how the refusal was reported."""
        shown, at = out.splitlines(), 0
        for number, (line, wanted) in enumerate(zip(self.lines, self.wanted), 1):
            met = shown[at : at + len(wanted)]
            at += len(wanted)
            if met == wanted:
                continue
            if len(met) == len(wanted) and ("busy" in met[0] or "NoMemory" in met[0]):
                return None, met[0]
            if met == [] and (status, error) == (1, f"line {number}: no memory\n"):
                return None, "no memory"
            if number == 1 and met == [] and status == 1 and error in ("start fault\n", "no memory\n"):
                return None, error.strip()
            if self.options[:1] == ["--cache"] and line.startswith(SHOWS_THE_CACHE):
                continue
            return f"line {number} shows {met}, status {status}, {error!r}", None
        is_whole = (status, error, at) == (0, "", len(shown))
        return (None, "nothing") if is_whole else (f"it ends with status {status}, {error!r}", None)


class Refused(Case):
    seconds = 300

    def setUp(self):
        super().setUp()
        room = tempfile.TemporaryDirectory()
        self.addCleanup(room.cleanup)
        self.room = room.name
        source, self.library, self.mark = (os.path.join(room.name, name) for name in ("refuse.c", "refuse.so", "mark"))
        with open(source, "w", encoding="utf-8") as file:
            file.write(REFUSE)
        made = ran(os.environ.get("CC", "cc"), "-shared", "-fPIC", "-O1", "-o", self.library, source)
        self.wants((made.status, made.error), (0, ""), "the library that refuses")

    def runs(self, words):
        """How a program ends with each allocation refused in turn, and first with none: (number, what it printed)."""
        for number in itertools.count():
            with open(self.mark, "w", encoding="utf-8"):
                names = {"LD_PRELOAD": self.library, "REFUSED_ALLOCATION": str(number), "NOT_REFUSED": self.mark}
            said = ran(*words(), text=self.text, env={**os.environ, **names}, cwd=self.room)
            if number > 0 and os.path.exists(self.mark):
                return
            yield number, said

    text = ""


class Scripts(Refused):
    def script(self, file, name, *options):
        script, seen = Script(file, name, list(options)), set()
        self.text = "\n".join(script.lines) + "\n"
        for number, said in self.runs(lambda: [program("autoraid"), "run", *options]):
            fault, how = script.judged(*said)
            self.wants(fault, None, f"what is wrong with allocation {number} refused")
            seen.add(how)
        self.holds({"nothing", "start fault", "no memory"} <= seen, "a start fault, and no memory", seen)

    def test_first_run(self):
        self.script("units", "the first run")

    def test_all_the_room(self):
        self.script("room", "a unit takes all the room", "--extents", "3")

    def test_squeezes(self):
        self.script("squeeze", "squeezes fill groups with parity", "--extents", "3")

    def test_parity_with_a_lost_disk(self):
        self.script("squeeze", "a lost disk is read and written by parity", "--extents", "3")

    def test_moves(self):
        self.script("moves", "moves go on with a disk out")

    def test_rebuild(self):
        self.script("rebuild", "a replaced disk is rebuilt")

    def test_cache(self):
        self.script("cache", "a block waits until it is flushed or forced", "--cache", "4")

    def test_added_disk(self):
        self.script("added", "an added disk takes extents over, and a group is formed")


class Tests(Refused):
    """Tests that go on after the refusal of any one allocation, by their crates."""

    def goes_on(self, crate, test):
        number = 0
        for number, said in self.runs(lambda: [tests_of(crate), test]):
            self.wants(said.status, 0, f"allocation {number} refused: {said}")
        self.holds(number > 10, "more than 10 allocations", number)

    def test_history_refused_command(self):
        self.goes_on("test_history", "memory::a_refused_command_is_asked_again")

    def test_sessions_thread(self):
        self.goes_on("test_sessions", "scarce::a_thread_that_does_not_start")

    def test_full_cache(self):
        self.goes_on("test_space", "cache::a_full_cache_takes_no_memory")

    def test_cached_put(self):
        self.goes_on("test_space", "cache::no_put_is_refused_for_memory")

    def test_log(self):
        self.goes_on("test_log", "scarce::a_log_goes_on")

    def test_log_over_zeros(self):
        self.goes_on("test_log", "zeroed_scarce::a_log_over_zeros_goes_on")

    def test_journal(self):
        self.goes_on("test_log", "scarce::a_journal_goes_on")

    def test_two_copies(self):
        self.goes_on("test_log", "scarce::two_copies_go_on")

    def test_array_first_run(self):
        self.goes_on("test_array", "scarce::the_first_run")

    def test_array_all_the_room(self):
        self.goes_on("test_array", "scarce::a_unit_takes_all_the_room")

    def test_array_full(self):
        self.goes_on("test_array", "scarce::a_full_array")

    def test_array_rebuild(self):
        self.goes_on("test_array", "scarce::a_disk_is_replaced_and_rebuilt")

    def test_array_cache(self):
        self.goes_on("test_array", "scarce::a_block_waits_in_the_cache")

    def test_array_added_disk(self):
        self.goes_on("test_array", "scarce::an_added_disk_is_balanced")

    def test_iscsi_session(self):
        self.goes_on("test_iscsi", "scarce::a_whole_session")

    def test_iscsi_commands_sent_ahead(self):
        self.goes_on("test_iscsi", "scarce::commands_sent_ahead")

    def test_iscsi_discovery(self):
        self.goes_on("test_iscsi", "scarce::discovery")


def knock(port, has_ended):
    """Logs in to a server once it listens, until it has ended: by its one session."""
    while not has_ended.is_set():
        with contextlib.suppress(OSError), socket.create_connection(("127.0.0.1", port), timeout=10) as link:
            link.sendall(LOGIN + b"\0")
            link.recv(1)
        time.sleep(0.01)


class Servers(Refused):
    """A server ends with one message, or serves its one connection."""

    def server(self, audit):
        seen, wanted = set(), {(True, ""), (True, REFUSED), *((False, refusal) for refusal in REFUSALS)}
        # (its threads allocate in an order of their own in each run, in which a connection's may be missed)
        for _ in range(3):
            self.with_each_refused(audit, seen)
            if wanted <= seen:
                break
        self.holds(wanted <= seen, wanted, seen)

    def with_each_refused(self, audit, seen):
        """Serves with each allocation refused in turn, and adds to `seen` what was said."""
        closed = [f"host {host} commands 0" for host in range(4)]
        closed.append("closed ok" if audit == "full" else "closed")
        clients = []

        def words():
            port, has_ended = free_port(), threading.Event()
            client = threading.Thread(target=knock, args=(port, has_ended), daemon=True)
            client.start()
            clients.append((port, has_ended, client))
            return [program("autoraid"), "serve", "--port", port, "--sessions", "1", "--audit", audit, "0:0:4"]

        for number, (status, out, error) in self.runs(words):
            port, has_ended, client = clients.pop()
            has_ended.set()
            client.join()
            said, listening, error = out.splitlines(), [f"listening {port}"], untimed(error)
            refused = status == 1 and said == [] and error in REFUSALS
            is_right = refused or (status, said) == (0, listening + closed) and error in ("", REFUSED)
            self.holds(is_right, f"with allocation {number} refused, a service or one message", (status, said, error))
            seen.add((bool(said), error))
        for _, has_ended, client in clients:
            has_ended.set()
            client.join()

    def order(self, audit):
        """Of eight units each is there exactly if its `make` was answered `ok`, whatever allocation was refused."""
        seen = set()
        for number, server in self.servers(audit):
            made = self.answers_to(server, "".join(f"make 0 {lun} 8\n" for lun in range(8))).splitlines()
            dropped = [self.dropped(server, lun) for lun in range(8)]
            if "" in dropped:
                ended = server.ended()
                self.wants((ended.status, ended.error), (1, "no memory\n"), f"a server, allocation {number} refused")
                continue
            wanted = ["ok\n" if said == "ok" else "refused M5 Absent\n" for said in made + [""] * (8 - len(made))]
            self.wants(dropped, wanted, f"`drop` of units that were answered {made}, allocation {number} refused")
            seen.update(made)
        self.holds({"ok"} < seen, "units that were made, and one that wasn't", seen)

    def answers_to(self, server, lines):
        try:
            return server.answers_to(lines)
        except OSError:
            return ""

    def dropped(self, server, lun):
        """The answer to a `drop`. (The one refusal may meet it, and then it isn't done.)"""
        said = self.answers_to(server, f"drop 0 {lun}\n")
        is_met = said in ("", "fault: no memory\n", "refused M4 NoMemory\n")
        return self.answers_to(server, f"drop 0 {lun}\n") if is_met else said

    def servers(self, audit, *words, doors=("operator",)):
        """For each allocation that is refused a server, if it begins to listen."""
        for number in itertools.count():
            with open(self.mark, "w", encoding="utf-8"):
                names = {"LD_PRELOAD": self.library, "REFUSED_ALLOCATION": str(number), "NOT_REFUSED": self.mark}
            try:
                server = self.serve("--extents", "16", *words, doors=doors, audit=audit, env={**os.environ, **names})
            except ConnectionError:
                continue
            yield number, server
            server.kill()
            if number > 0 and os.path.exists(self.mark):
                return

    def busy(self, statuses, *doors):
        """Each BUSY that a WRITE gets is counted once, also where memory for its data is refused."""
        seen = set()
        for number, server in self.servers("off", "0:0:8", doors=("operator", "http", *doors)):
            with contextlib.suppress(OSError):
                said = statuses(server).count(BUSY)
                self.wants(self.counted(server), said, f"the BUSY of host 0, allocation {number} refused")
                seen.add(said)
        self.wants(seen, {0, 1}, "how many WRITEs were BUSY")

    def counted(self, server):
        """How many replies BUSY to host 0 the metrics have. (The one refusal may meet the first request.)"""
        for _ in range(2):
            with contextlib.suppress(OSError, http.client.HTTPException):
                found = COUNTED_BUSY.findall(server.get("/metrics")[2])
                if found:
                    return sum(map(int, found))
        return None

    def written(self, server):
        with contextlib.closing(server.log_in(0)) as host:
            replies = [host.writes(0, bytes(1024)) for _ in range(2)]
        return [reply.status for reply in replies if reply]

    def written_over_iscsi(self, server):
        with contextlib.closing(server.initiator(0)) as initiator:
            writes = {"flags": 0xA1, "expected": 1024, "data": bytes(1024)}
            replies = [initiator.asks(write_10(0, 2), **writes)[1] for _ in range(3)]
        return [reply.status for reply in replies if reply]

    def test_busy_is_counted(self):
        self.busy(self.written)

    def test_busy_over_iscsi_is_counted(self):
        self.busy(self.written_over_iscsi, "iscsi")

    def test_order(self):
        self.order("full")

    def test_order_without_an_audit(self):
        self.order("off")

    def test_server(self):
        self.server("full")

    def test_server_without_an_audit(self):
        self.server("off")
