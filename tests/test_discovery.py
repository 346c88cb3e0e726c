"""Discovery over iSCSI, a unit's pages, and the seat that a target shares with the array's own framing."""
import re

from tests.harness import ACCEPTED, TARGET, waited
from tests.initiators import InitiatorCase

PAGES = [(0, "Supported"), (0x80, "Serial"), (0x83, "NAA"), (0xB0, "maximum transfer"), (0xB1, "Rotation")]


class Discovery(InitiatorCase):
    def three_units(self):
        return self.target("--extents", "16", "0:0:24", "0:7:8", "3:2:16", "--cache", "4")

    def test_targets_and_units(self):
        """Each host's target and its units."""
        server = self.three_units()
        said = self.succeeds("iscsi-ls", "-s", f"iscsi://127.0.0.1:{server.iscsi_port}")
        wanted = [(f"{TARGET}{host}", f"127.0.0.1:{server.iscsi_port},1") for host in range(4)]
        self.wants(sorted(re.findall(r"^Target:(\S+) Portal:(\S+)$", said, re.MULTILINE)), wanted, "targets")
        units = sorted(re.findall(r"^Lun:(\d+) +Type:(\S+)", said, re.MULTILINE))
        self.wants(units, sorted((lun, "DIRECT_ACCESS") for lun in "072"), "units")
        self.stops(server, error="")

    def test_pages(self):
        server = self.three_units()
        for page, words in PAGES:
            with self.subTest(page=f"{page:02X}h"):
                said = self.succeeds("iscsi-inq", "-e", "1", "-c", str(page), self.url(server, 0))
                self.holds(words.lower() in said.lower(), words, said)
        self.stops(server)

    def test_capacity(self):
        server = self.three_units()
        said = self.succeeds("iscsi-readcapacity16", self.url(server, 3, 2))
        self.wants(re.findall(r"ADDRESS:(\d+)$", said, re.MULTILINE)[:1], ["15"], "the last sector")
        self.stops(server)


class Seats(InitiatorCase):
    """A target and the framing of the array itself share a host's seat."""

    def setUp(self):
        super().setUp()
        self.server = self.target("--extents", "16", "0:0:24", "1:0:8")

    def test_seat_in_use(self):
        host = self.kept(self.server.log_in(0))
        self.wants(host.greeting, ACCEPTED, "a login")
        status, said = self.tool("iscsi-inq", self.url(self.server, 0))
        self.holds(status != 0 and "Out of resources" in said, "no login of a host in use", (status, said))
        self.succeeds("iscsi-inq", self.url(self.server, 1))
        host.close()
        self.stops(self.server)

    def test_seat_of_a_host_that_has_left(self):
        self.server.log_in(0).close()
        self.wants(self.server.wait_for_none(), "", "sessions")
        self.succeeds("iscsi-inq", self.url(self.server, 0))
        self.stops(self.server)

    def test_seat_of_an_initiator_that_has_left(self):
        self.succeeds("iscsi-inq", self.url(self.server, 0))
        said = waited(lambda: self.server.answers_to("sessions\n"), "")
        self.wants(said, "", "sessions once an initiator has left")
        host = self.kept(self.server.log_in(0))
        self.wants((host.greeting, host.is_ready()), (ACCEPTED, True), "a host after an initiator")
        host.close()
        self.stops(self.server)
