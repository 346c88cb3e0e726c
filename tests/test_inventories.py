"""Units that an operator makes and drops while iSCSI sessions are open: what these report, by SPC-4, REPORT LUNS, and
SAM-4, unit attention conditions; and the names of units that are made anew, by SPC-3, Device Identification."""
from tests.harness import GOOD, TEST_UNIT_READY, Case, read_10
from tests.test_store import Stored, forced_write

MIB = 1 << 20

# REPORTED LUNS DATA HAS CHANGED, and LOGICAL UNIT NOT SUPPORTED: sense key, additional code, qualifier.
CHANGED = (2, b"\x06\x3F\x0E")
NO_UNIT = (2, b"\x05\x25\x00")
NEW_SESSION = (2, b"\x06\x29\x00")
DONE = (0, b"")
INQUIRY = bytes.fromhex("12 00 00 00 24 00")
REQUEST_SENSE = bytes.fromhex("03 00 00 00 12 00")
SERIAL_NUMBER = bytes.fromhex("12 01 80 01 00 00")
DEVICE_IDENTIFICATION = bytes.fromhex("12 01 83 01 00 00")
REPORT_LUNS = bytes.fromhex("A0 00 00 00 00 00 00000100 00 00")


class Inventories(Case):
    def setUp(self):
        super().setUp()
        units = ("0:0:24", "0:1:24", "1:0:24")
        self.server = self.serve("--extents", "16", *units, doors=("operator", "iscsi"))
        self.initiator, self.other = (self.session_of(host) for host in (0, 1))

    def session_of(self, host):
        """A session of a host, whose units have reported that it is new."""
        initiator = self.kept(self.server.initiator(host))
        for lun in range(2 - host):
            self.wants(self.status(initiator, lun), NEW_SESSION, f"host {host}, LUN {lun} in a new session")
        return initiator

    def status(self, initiator, lun, block=TEST_UNIT_READY, expected=0):
        """The status of a command, and its sense."""
        _, said = initiator.asks(block, lun, flags=0xC1 if expected else 0x81, expected=expected)
        return said.status, said.code if said.opcode == 0x21 else b""

    def orders(self, line):
        self.wants(self.server.answers_to(line + "\n"), "ok\n", f"`{line}`")

    def made_again(self):
        """LUN 0 is another unit."""
        self.orders("drop 0 0")
        self.orders("make 0 0 24")

    def finish(self):
        for one in self.initiator, self.other:
            one.close()
        self.stops(self.server)

    def test_each_unit_reports_a_change_once(self):
        """A unit is dropped and made again: each unit of its host reports it once, and no other host's."""
        self.made_again()
        self.wants(self.status(self.initiator, 0, INQUIRY, 36), DONE, "INQUIRY after it")
        self.wants(self.status(self.initiator, 0, read_10(0, 1), 512), CHANGED, "READ after it")
        self.wants(self.status(self.initiator, 0, read_10(0, 1), 512), DONE, "the next READ")
        self.wants(self.status(self.initiator, 1), CHANGED, "the other LUN after it")
        self.wants(self.status(self.initiator, 1), DONE, "the other LUN after that")
        self.wants(self.status(self.other, 0), DONE, "another host's LUN")
        self.finish()

    def test_request_sense_returns_it_as_data(self):
        self.orders("make 0 7 8")
        data, said = self.initiator.asks(REQUEST_SENSE, 0, flags=0xC1, expected=18)
        self.wants(data.hex(), "70 00 06 00000000 0A 00000000 3F 0E 00 00 00 00".replace(" ", "").lower(), "the sense")
        self.wants(said.status, 0, "the status of REQUEST SENSE")
        self.wants(self.status(self.initiator, 0), DONE, "the next command")
        self.finish()

    def test_report_luns_clears_it_at_all_units(self):
        self.orders("make 0 7 8")
        self.wants(self.status(self.initiator, 0, REPORT_LUNS, 256), DONE, "REPORT LUNS after it")
        for lun in 0, 1, 7:
            wanted = NEW_SESSION if lun == 7 else DONE
            self.wants(self.status(self.initiator, lun), wanted, f"LUN {lun} after REPORT LUNS")
        self.finish()

    def test_a_lun_without_a_unit_reports_nothing(self):
        self.orders("drop 0 1")
        self.wants(self.status(self.initiator, 1), NO_UNIT, "the LUN of a unit that was dropped")
        self.wants(self.status(self.initiator, 0), CHANGED, "the other LUN")
        self.finish()

    def test_a_growth_has_its_own_report(self):
        self.orders("grow 0 0 48")
        self.wants(self.status(self.initiator, 0), (2, b"\x06\x2A\x09"), "a unit that has grown")
        for lun in 0, 1:
            self.wants(self.status(self.initiator, lun), DONE, f"LUN {lun} after that")
        self.finish()


class Named(Case):
    """A case of the names of units: each has its generation, which counts the units that were made at its LUN."""

    def names(self, server, lun=0):
        """The serial number of host 0's unit, the generation in it and in its NAA designator."""
        initiator = self.kept(server.initiator(0))
        serial, _ = initiator.asks(SERIAL_NUMBER, lun, flags=0xC1, expected=256)
        page, _ = initiator.asks(DEVICE_IDENTIFICATION, lun, flags=0xC1, expected=256)
        initiator.close()
        self.wants(serial[:4].hex(), "00800010", "the head of the Unit Serial Number page")
        # (the T10 designator has 4 bytes and 24, the NAA designator 4 and 8)
        vendor, naa = page[4:32], page[32:44]
        self.wants(vendor[12:], serial[4:], "the serial number in the T10 designator")
        self.wants(naa[:4].hex(), "01030008", "the head of the NAA designator")
        self.wants(naa[6:].hex().upper(), serial[4:16].decode(), "array, host and LUN in the NAA designator")
        short = int.from_bytes(naa[4:6], "big")
        self.wants(short >> 12, 3, "the kind of the NAA designator")
        self.wants(int(serial[16:], 16) % 4096, short % 4096, "the generation in the NAA designator")
        return serial[4:].decode()

    def orders(self, server, line):
        self.wants(server.answers_to(line + "\n"), "ok\n", f"`{line}`")

    def made_again(self, server):
        self.orders(server, "drop 0 0")
        self.orders(server, "make 0 0 24")


class Names(Named):
    def test_a_unit_made_anew_has_another_name(self):
        server = self.serve("--extents", "16", "0:0:24", "0:1:24", doors=("operator", "iscsi"))
        first, other = self.names(server), self.names(server, 1)
        for number in range(1, 4):
            self.made_again(server)
            self.wants(self.names(server), f"{first[:12]}{number:04X}", f"the serial number after {number} makes more")
        self.wants(self.names(server, 1), other, "that of the other unit")
        self.wants(f"serial {first[:12]}0003" in server.answers_to("units\n"), True, "whether operators see it")
        self.stops(server)


class StoredNames(Named, Stored):
    """Names of units in a store."""

    def serves(self, *units):
        return self.takes_up(*units, doors=("operator", "iscsi", "http"))

    def is_named(self, server, name, when):
        self.wants(self.names(server), name, f"the serial number {when}")

    def test_names_last(self):
        """Over a stop, which replaces the log, and over a kill, after which its records are executed again."""
        self.creates("--extents", "16")
        server = self.serves("0:0:24", "0:1:24")
        first = self.names(server)[:12]
        self.is_named(server, f"{first}0000", "of the first unit")
        for number in range(1, 7):
            self.made_again(server)
            self.is_named(server, f"{first}{number:04X}", f"after {number} makes more")
            if number % 2:
                self.stops(server)
            else:
                server.kill()
            server = self.serves("0:0:24", "0:1:24")
            self.is_named(server, f"{first}{number:04X}", f"at a start after {number} makes more")
        self.orders(server, "drop 0 0")
        self.stops(server)
        server = self.serves("0:0:24", "0:1:24")
        self.is_named(server, f"{first}0007", "of a unit that a start has created anew")
        self.stops(server)
        server = self.serves("0:0:24", "0:1:24")
        self.is_named(server, f"{first}0007", "at the next start")
        self.stops(server)

    def test_names_last_over_a_log_replaced_meanwhile(self):
        """Before it, while it is made, and after it units are made anew."""
        self.creates("--geometry", "paper", "--extents", "4")
        server = self.serves("0:0:24", "1:0:4096")
        first = self.names(server)[:12]
        session, makes = self.host(server, 1), 0
        while server.status_json()["store"]["checkpoints"] < 1 and makes < 400:
            for lba in 0, 2048:
                self.wants(session.asks(forced_write(lba, 2048), bytes(MIB)).status, GOOD, "a WRITE")
            self.made_again(server)
            makes += 1
        self.made_again(server)
        self.is_named(server, f"{first}{makes + 1:04X}", f"after {makes + 1} makes more")
        server.kill()
        server = self.serves("0:0:24", "1:0:4096")
        self.is_named(server, f"{first}{makes + 1:04X}", "at the next start")
        self.stops(server)
