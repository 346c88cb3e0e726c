"""What a served array shows over HTTP: each path while it is whole, has lost a disk, is whole again; and its end."""
import os
import re
import subprocess
import tempfile
import time

from tests.harness import Case, answered, connected, program, ran, waited

# What stands at each path.
TYPES = {
    "/": "text/html; charset=utf-8",
    "/picture.svg": "image/svg+xml",
    "/metrics": "text/plain; version=0.0.4; charset=utf-8",
    "/status.json": "application/json",
    "/healthz": "text/plain; charset=utf-8",
    "/healthz/whole": "text/plain; charset=utf-8",
}
DOORS = ("operator", "http")


def drawn(*lines):
    """The picture of an array that met these lines of a script, as `run --picture` draws it."""
    with tempfile.TemporaryDirectory() as room:
        file = os.path.join(room, "picture.svg")
        words = [program("autoraid"), "run", "--disks", "5", "--extents", "16", "--picture", file]
        done = ran(*words, text="".join(f"{line}\n" for line in lines))
        if done.status:
            raise subprocess.SubprocessError(f"run --picture: {done}")
        with open(file, encoding="utf-8") as picture:
            return picture.read()


class Pages(Case):
    def setUp(self):
        super().setUp()
        self.server = self.serve("--disks", "5", "--extents", "16", "0:0:24", doors=DOORS)

    def events(self):
        """The kinds of what has happened, the newest first, each with its numbers."""
        found = self.server.status_json()["events"]
        return [(event["kind"], *(event[key] for key in ("disk", "host", "lun") if key in event)) for event in found]

    def health(self):
        code, _, body = self.server.get("/healthz/whole")
        return code, body

    def path(self, path):
        code, fields, body = self.server.get(path)
        said = code, fields.get("content-type"), fields.get("cache-control"), fields.get("content-length")
        self.wants(said, (200, TYPES[path], "no-store", str(len(body.encode()))), path)
        head_code, head, nothing = self.server.get(path, "HEAD")
        self.wants((head_code, nothing), (200, ""), f"HEAD {path}")
        # (a body that shows the time or what was counted may be longer a moment later)
        if path not in ("/metrics", "/status.json"):
            self.wants(head, fields, f"the header fields of HEAD {path}")
        self.stops(self.server, [0, 0, 0, 0])

    def test_page(self):
        self.path("/")

    def test_what_the_page_shows(self):
        """Its script asks for elements and numbers that there are, and its letters are 11 pixels high at least."""
        page, status = self.server.get("/")[2], self.server.status_json()
        asked, there = (set(re.findall(pattern, page)) for pattern in (r"\bat\('(\w+)'\)", r"\bid='(\w+)'"))
        self.wants(asked - there, set(), "elements that the page hasn't")
        shown = set(re.findall(r"\bstatus\.(?!json)(\w+)", page))
        for names in re.findall(r"const \{ ([\w, ]+) \} = status\b", page):
            shown |= set(names.split(", "))
        self.wants((shown - set(status), len(shown) > 15), (set(), True), "numbers that /status.json hasn't")
        letters = [int(size) for size in re.findall(r"font(?:-size)?: (\d+)px", page)]
        self.holds(min(letters) >= 11 and len(letters) > 4, "letters of 11 pixels and more", letters)
        links = [f"<a href='{path}'>" in page for path in ("metrics", "status.json")]
        self.wants(links, [True, True], "links to metrics and to the status as JSON")

    def test_words_of_the_page(self):
        """Each state has a word, and a colour beside it."""
        page = self.server.get("/")[2]
        words = re.search(r"const STATES = \{(.+?)\};", page, re.DOTALL)[1]
        states = dict(re.findall(r"(\w+): '([\w ]+)'", words))
        wanted = {"whole", "out", "rebuilding", "broken", "silent", "alone", "failing"}
        self.wants(set(states), wanted, "the states that have a word")
        self.wants(len(set(states.values())), len(states), "different words")
        self.wants([state for state in states if f"header.{state}" not in page], [], "states without a colour")
        self.stops(self.server, [0, 0, 0, 0])

    def test_name(self):
        """The array's name, whatever stands in it; without one it is empty."""
        self.wants(self.server.status_json()["name"], "", "the name of an array without one")
        for name in "the first", "<b>\"'\\", "K\u00fcche", "n" * 64:
            server = self.serve("--name", name, "0:0:8", doors=("operator", "http"))
            self.wants(server.status_json()["name"], name, "an array's name")
            self.stops(server)

    def test_picture(self):
        self.path("/picture.svg")

    def test_metrics(self):
        self.path("/metrics")

    def test_status_json(self):
        self.path("/status.json")

    def test_healthz(self):
        self.path("/healthz")

    def test_healthz_whole(self):
        self.path("/healthz/whole")

    def test_guards(self):
        """What makes browsers give a response to no page of another site."""
        fields = self.server.get("/")[1]
        wanted = {
            "x-content-type-options": "nosniff",
            "content-security-policy": "frame-ancestors 'none'",
            "cross-origin-resource-policy": "same-origin",
        }
        self.wants({name: fields.get(name) for name in wanted}, wanted, "the header fields of the page")

    def test_names(self):
        """By which names an array answers: any port, any case."""
        for name in "localhost", "LOCALHOST:1", "127.0.0.1", "[::1]:7119":
            said = answered(self.server.http_port, f"GET /healthz HTTP/1.1\r\nHost: {name}\r\n\r\n".encode())
            self.wants(said[:13] + said[-8:], b"HTTP/1.1 200 " + b"\nserves\n", name)

    def test_another_name(self):
        """The name that `--http-host` adds, and no other."""
        server = self.serve("--http-host", "array.example", "0:0:8", doors=("operator", "http"))
        for name, code in ("Array.Example:7119", b"200"), ("localhost", b"200"), ("other.example", b"421"):
            said = answered(server.http_port, f"GET /healthz HTTP/1.1\r\nHost: {name}\r\n\r\n".encode())
            self.wants(said[:13], b"HTTP/1.1 " + code + b" ", name)
        self.stops(server)

    def test_other_methods(self):
        for method in "POST", "PUT", "DELETE", "OPTIONS":
            code, fields, body = self.server.get("/", method)
            self.wants((code, fields.get("allow"), body), (405, "GET, HEAD", "method not allowed\n"), method)

    def test_unknown_path(self):
        code, _, body = self.server.get("/none")
        self.wants((code, body), (404, "not found\n"), "/none")

    def test_picture_is_that_of_a_run(self):
        self.wants(self.server.get("/picture.svg")[2], drawn("make 0 0 24"), "the picture of a whole array")
        self.server.answers_to("out 1\n")
        self.wants(self.server.get("/picture.svg")[2], drawn("make 0 0 24", "out 1"), "the picture of a lost disk")

    def test_health_of_a_lost_disk(self):
        self.wants(self.health(), (200, "whole\n"), "the health of a whole array")
        self.server.answers_to("out 1\n")
        self.wants(self.health(), (503, "out 1\n"), "the health with a disk out")
        said = [self.server.sample(f'autoraid_{name}') for name in ('disk_healthy{disk="1"}', 'state{state="out"}')]
        self.wants(said, ["0", "1"], "the metrics of a lost disk")
        status = self.server.status_json()
        self.wants(status["health"], {"state": "out", "disk": 1}, "the status of a lost disk")
        self.wants((status["lost_disks"], status["store"]), (None, None), "neither an array that failed nor a store")

    def test_events_of_a_rebuild(self):
        """A disk fails, is replaced and rebuilt; units are made, grown and dropped."""
        self.server.answers_to("out 1\nreplace 1\nmake 3 7 8\nmake 3 7 8\ngrow 3 7 12\ndrop 3 7\n")
        self.wants(waited(self.health, (200, "whole\n")), (200, "whole\n"), "the health once the disk is rebuilt")
        said, disks = self.events(), [("disk_failed", 1), ("disk_replaced", 1), ("disk_rebuilt", 1)]
        units = [("unit_made", 3, 7), ("unit_grown", 3, 7), ("unit_dropped", 3, 7)]
        self.wants(sorted(said), sorted(disks + units), "what happened")
        self.wants([event for event in reversed(said) if event in disks], disks, "the order of the disk's events")
        self.wants([event for event in reversed(said) if event in units], units, "the order of the unit's events")
        self.stops(self.server, [0, 0, 0, 0])

    def test_events_of_two_lost_disks(self):
        self.server.answers_to("add\nout 0\nout 2 force\n")
        self.wants(self.health(), (503, "broken\n"), "the health with two disks out")
        wanted = [("array_failed",), ("disk_failed", 0), ("disk_added", 5)]
        self.wants(self.events()[:3], wanted, "the newest events")
        self.lost(0, 2)
        self.stops_failed(self.server, [0, 0, 0, 0])

    def lost(self, *disks):
        """Looks which disks an array is shown to have lost."""
        status, picture = self.server.status_json(), self.server.get("/picture.svg")[2]
        self.wants(status["lost_disks"], list(disks), "the disks that were lost, as JSON")
        said = [self.server.sample(f'autoraid_disk_lost{{disk="{disk}"}}') for disk in range(6)]
        self.wants(said, [str(int(disk in disks)) for disk in range(6)], "the same in metrics")
        words = ">Disks {} and {} were lost at one moment, and the data with them.</text>".format(*disks)
        self.wants((picture.count(words), picture.count(">out</text>")), (1, 2), "the words of the picture")
        said = [picture.count(f"<rect class='missing' x='{64 + 92 * disk}' ") for disk in range(6)]
        wanted = [status["extents"] * (disk in disks) for disk in range(6)]
        self.wants(said, wanted, "extents that it hatches, by disk")

    def test_a_disk_lost_in_a_rebuild(self):
        """A disk that is replaced, and not rebuilt yet, is one of the two."""
        self.server.answers_to("out 3\nadd\nreplace 3\nout 1 force\n")
        self.lost(1, 3)
        # (a failed array has lost no other)
        self.server.answers_to("out 0 force\n")
        self.lost(1, 3)
        self.stops_failed(self.server, [0, 0, 0, 0])

    def test_a_failure_while_nobody_watches(self):
        """A disk that fails by itself is seen, with its time, while nobody watches."""
        self.server.answers_to("".join(f"fail {disk} 0\n" for disk in range(5)))
        host = self.kept(self.server.log_in(0))
        host.writes(0, b"w" * 1024)
        time.sleep(3)
        said = self.server.status_json()
        self.wants(said["events"][0]["kind"], "array_failed", "the newest event")
        late = said["uptime_seconds"] - said["events"][0]["seconds"]
        self.holds(late >= 2, "an event of 3 s ago", f"{late} s ago")


UNIT = (
    "unit {host} {lun} sectors {sectors} blocks {blocks} written {written_blocks} cached {cached_blocks} "
    "serial {serial_number}"
)
DISK = "disk {disk} extents {extents_used} of {extents} accesses {accesses} errors {errors} {state}"


def as_words(status):
    """What operators' words answer, by the JSON."""
    inventory, extents = status["inventory"], status["extents"]
    kinds = "room", "mirrored", "parity", "unwritten"
    usage = [f"{kind} {inventory['usage'][f'{kind}_sectors']} sectors" for kind in kinds]
    return {
        "usage": [*usage, f"spares {status['spares']}"],
        "units": [UNIT.format(**unit) for unit in inventory["units"]],
        "disks": [DISK.format(**disk, extents=extents) for disk in inventory["disks"]],
    }


class Inventory(Case):
    """What operators' words say of units, disks and sectors is in the JSON, too."""

    def setUp(self):
        super().setUp()
        words = "--extents", "16", "--cache", "2", "0:0:24", "1:3:5"
        self.server = self.serve(*words, audit="off", doors=(*DOORS, "iscsi"))
        self.operator = self.kept(self.server.operator())

    def said(self):
        return {word: self.operator.asks(word) for word in ("usage", "units", "disks")}

    def agrees(self):
        """Compares the words with the JSON, which is read between two times that they say the same."""
        for _ in range(100):
            said, status = self.said(), self.server.status_json()
            if said == self.said():
                break
            time.sleep(0.05)
        self.wants(as_words(status), said, "the JSON")
        return {word: [line.split() for line in lines] for word, lines in said.items()}

    def test_what_words_say(self):
        """Before and after writes, with a disk out, and once it was rebuilt."""
        self.agrees()
        host = self.kept(self.server.log_in(0))
        self.wants(host.writes(0, b"w" * 8192).status, 0, "a WRITE of eight blocks")
        unit = self.agrees()["units"][0]
        self.holds(int(unit[8]) + int(unit[10]) >= 8, "eight blocks that are on the disks or cached", unit)
        self.wants(self.operator.asks("out 1"), ["ok"], "a disk that is taken out")
        self.wants(self.agrees()["disks"][1][10:], ["out"], "it")
        self.wants(self.operator.asks("replace 1"), ["ok"], "a new disk")
        self.wants(self.operator.waits("health", ["whole"]), ["whole"], "a rebuild")
        self.wants([disk[10:] for disk in self.agrees()["disks"]], [["in", "use"]] * 4, "the disks afterwards")


class End(Case):
    def test_end_of_a_watched_service(self):
        """A service without operators ends with its last session, whoever watches."""
        server = self.serve("--sessions", "1", doors=("http",))
        self.wants(server.get("/healthz")[0], 200, "/healthz without operators")
        self.kept(connected(server.http_port))
        server.log_in(0).close()
        begun = time.monotonic()
        self.ends(server, [0, 0, 0, 0])
        passed = time.monotonic() - begun
        self.holds(passed < 10, "a silent client holds up the end for less than 10 s", f"{passed:.1f} s")
