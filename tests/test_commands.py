"""Command blocks of 6, 10 and 16 bytes, invalid fields, sense and data, byte for byte from the tables of SPC-3 and
SBC-2.

They are asked of a served array, each of whose replies is, by contract, the one that the unit's own commands give.
"""
from tests.harness import CHECK, GOOD, TEST_UNIT_READY, Case, read_10, write_10

CAPACITY = bytes.fromhex("25 00 00000000 0000 00 00")
READY = TEST_UNIT_READY
# REQUEST SENSE, which isn't in the array's own command set.
UNKNOWN = bytes.fromhex("03 00 00 00 00 00")
# Peripheral device type, version and length; vendor, product and revision.
INQUIRY_DATA = b"\x00\x00\x05\x02\x1F\x00\x00\x00AUTORAIDTWO LEVEL ARRAY 0001"
INQUIRY_DATA_NOWHERE = b"\x7F" + INQUIRY_DATA[1:]
SECTOR = b"\xAA" * 512
DONE = GOOD, b"", b""

# Of a unit that has 70,000 sectors, 11170h; sector 304h has AAh, and sector 10002h BBh. `None` stands for any data.
VALID = [
    ("TEST UNIT READY", "00 00 00 00 00 00", b""),
    ("bits that nothing names, and bytes past the sixth", "00 FF FF FF FF FB FF FF FF FF", b""),
    ("INQUIRY without room", "12 00 00 00 00 00", b""),
    ("INQUIRY with room for 65,534", "12 FE 00 FF FE FB FF", INQUIRY_DATA),
    ("READ CAPACITY", "25 00 00000000 0000 00 00", bytes.fromhex("0001116F 00000200")),
    ("READ CAPACITY with PMI and an address", "25 00 00000007 0000 01 00", bytes.fromhex("0001116F 00000200")),
    ("READ (10) of one sector", "28 00 00000304 00 0001 00", SECTOR),
    ("READ (10) of another", "28 00 00010002 00 0001 00", b"\xBB" * 512),
    ("READ (10) of 506h sectors", "28 00 00000304 00 0506 00", SECTOR + bytes(0x505 * 512)),
    ("READ (10) with DPO, FUA, FUA_NV, a group number", "28 1A 00000304 1F 0001 00", SECTOR),
    ("READ (16) of one sector", "88 00 0000000000000304 00000001 00 00", SECTOR),
    ("READ (16) of 506h sectors", "88 00 0000000000000304 00000506 FF FB", SECTOR + bytes(0x505 * 512)),
    ("READ (16) with DPO, FUA, FUA_NV", "88 1A 0000000000010002 00000001 00 00", b"\xBB" * 512),
    ("READ of nothing after the last sector", "28 00 00011170 00 0000 00", b""),
]
# What is refused: LOGICAL BLOCK ADDRESS OUT OF RANGE, INVALID COMMAND OPERATION CODE, INVALID FIELD IN CDB.
OUT_OF_RANGE = [
    ("the sector after the last", "28 00 00011170 00 0001 00"),
    ("nothing of the next", "28 00 00011171 00 0000 00"),
    ("the highest byte of the address", "28 00 01000000 00 0001 00"),
    ("the second byte of the address", "28 00 00100000 00 0001 00"),
    ("the farthest of READ (10)", "28 1A FFFFFFFF 1F 0000 00"),
    ("one sector too many", "28 00 00011170 00 0001 00"),
    ("the farthest of READ (16)", "88 00 FFFFFFFFFFFFFFFF 00000001 00 00"),
    ("READ (16) past 32 bits", "88 1A 0000000100000000 00000000 00 00"),
    ("READ (16) past 56 bits", "88 00 0102030405060708 0000FFFF FF FB"),
    ("WRITE (10) past the end, of nothing", "2A 00 00011171 00 0000 00"),
    ("WRITE (16) past the end, of nothing", "8A 00 0000000000011171 00000000 00 00"),
]
UNKNOWN_CODES = [f"{code:02X} 00 00 00 00 00" for code in bytes.fromhex("01 03 08 0A 1A 24 2F 35 89 9E A0 A8 FF")]
INVALID_FIELDS = [
    ("NACA of TEST UNIT READY", "00 00 00 00 00 04"),
    ("NACA of INQUIRY", "12 00 00 00 24 04"),
    ("NACA of READ CAPACITY", "25 00 00000000 0000 00 04"),
    ("NACA of READ (10)", "28 00 00000000 00 0001 04"),
    ("NACA of WRITE (10)", "2A 00 00000000 00 0001 04"),
    ("NACA of READ (16)", "88 00 0000000000000000 00000001 00 04"),
    ("NACA of WRITE (16)", "8A 00 0000000000000000 00000001 00 04"),
    ("EVPD with a page", "12 01 80 00 24 00"),
    ("EVPD without a page", "12 01 00 00 24 00"),
    ("a page without EVPD", "12 00 80 00 24 00"),
    ("an address without PMI", "25 00 00000007 0000 00 00"),
    ("RDPROTECT of READ (10)", "28 20 00000000 00 0001 00"),
    ("WRPROTECT of WRITE (10)", "2A 80 00000000 00 0001 00"),
    ("RDPROTECT of READ (16)", "88 20 0000000000000000 00000001 00 00"),
    ("WRPROTECT of WRITE (16)", "8A 80 0000000000000000 00000001 00 00"),
    ("READ (16) of 65,536 sectors", "88 00 0000000000000000 00010000 00 00"),
    ("WRITE (16) of 65,536 sectors", "8A 00 0000000000000000 00010000 00 00"),
]


def check(key, asc, ascq):
    """CHECK CONDITION, with sense data of fixed format: SPC-3, 4.5.3."""
    return CHECK, bytes([0x70, 0, key, 0, 0, 0, 0, 0x0A, 0, 0, 0, 0, asc, ascq, 0, 0, 0, 0]), b""


def inquiry(room):
    return bytes([0x12, 0, 0, room >> 8, room & 255, 0])


class Blocks(Case):
    def setUp(self):
        super().setUp()
        self.server = self.serve("--geometry", "paper", "--extents", "16", "3:7:70000")
        self.host = self.kept(self.server.log_in(3))

    def asks(self, block, wanted, what, data=b"", lun=7):
        self.wants(tuple(self.host.asks(block, data, lun)[1:]), wanted, what)

    def test_valid_blocks(self):
        for lba, byte in (0x304, b"\xAA"), (0x10002, b"\xBB"):
            self.asks(write_10(lba, 1), DONE, "a WRITE", byte * 512)
        for what, block, data in VALID:
            with self.subTest(what):
                self.asks(bytes.fromhex(block), (GOOD, b"", data), what)

    def test_writes(self):
        """WRITE (10) and (16), with FUA and without: each reaches its sector."""
        writes = "2A 00 00000002", "2A 08 00000003", "8A 00 0000000000000004", "8A 08 0000000000000005"
        for number, start in enumerate(writes):
            block = bytes.fromhex(start + (" 00 0001 00" if start[0] == "2" else " 00000001 00 00"))
            self.asks(block, DONE, f"a WRITE {start}", bytes([number + 1]) * 512)
        data = bytes(1024) + b"".join(bytes([number + 1]) * 512 for number in range(4)) + bytes(512)
        self.asks(read_10(0, 7), (GOOD, b"", data), "a READ of all of them")

    def test_out_of_range(self):
        for what, block in OUT_OF_RANGE:
            with self.subTest(what):
                self.asks(bytes.fromhex(block), check(5, 0x21, 0), what)

    def test_unknown_codes(self):
        for block in UNKNOWN_CODES:
            with self.subTest(block):
                self.asks(bytes.fromhex(block), check(5, 0x20, 0), block)

    def test_invalid_fields(self):
        for what, block in INVALID_FIELDS:
            with self.subTest(what):
                self.asks(bytes.fromhex(block), check(5, 0x24, 0), what)

    def test_no_unit(self):
        for block in READY, CAPACITY, read_10(0, 1), bytes.fromhex("88 00 0000000000000000 00000004 00 00"):
            self.asks(block, check(5, 0x25, 0), f"{block.hex()} at a LUN without a unit", lun=6)

    def test_wrong_length_of_data(self):
        two = bytes.fromhex("8A 00 0000000000000000 00000002 00 00")
        for block in two, write_10(0, 2), write_10(0, 0):
            self.asks(block, check(0x0B, 0x4B, 0), f"{block.hex()} with the data of one sector", SECTOR)
        self.asks(read_10(0, 2), (GOOD, b"", bytes(1024)), "a READ of what wasn't written")

    def test_inquiries_are_cut(self):
        for lun, data in (7, INQUIRY_DATA), (6, INQUIRY_DATA_NOWHERE):
            for room in 0, 1, 5, 35, 36, 255, 65535:
                what = f"INQUIRY of LUN {lun} with room for {room}"
                self.asks(inquiry(room), (GOOD, b"", data[:room]), what, lun=lun)

    def test_broken_array(self):
        """INTERNAL TARGET FAILURE, for what needs the disks alone."""
        self.asks(write_10(0, 1), DONE, "a WRITE", SECTOR)
        self.wants(self.server.answers_to("out 0\nout 1 force\n"), "ok\nok\n", "two disks that are taken out")
        self.asks(read_10(0, 1), check(4, 0x44, 0), "a READ of lost data")
        self.asks(READY, check(4, 0x44, 0), "TEST UNIT READY of a broken array")


class Units(Case):
    def setUp(self):
        super().setUp()
        self.server = self.serve("--extents", "16")
        self.host = self.kept(self.server.log_in(0))

    def operate(self, *lines):
        self.wants(self.server.answers_to("\n".join(lines) + "\n"), "ok\n" * len(lines), f"an operator's {lines}")

    def asks(self, block, wanted, what, data=b""):
        self.wants(tuple(self.host.asks(block, data)[1:]), wanted, what)

    def test_a_unit_reads_what_was_written(self):
        self.operate("make 0 0 4")
        self.asks(write_10(1, 1), DONE, "a WRITE", SECTOR)
        self.asks(read_10(0, 2), (GOOD, b"", bytes(512) + SECTOR), "a READ")
        self.operate("drop 0 0")
        self.asks(READY, check(5, 0x25, 0), "a unit that was deleted")
        self.operate("make 0 0 4")
        self.asks(read_10(0, 2), (GOOD, b"", bytes(1024)), "a READ of a unit that was created again")

    def test_capacity(self):
        self.operate("make 0 0 6")
        self.asks(CAPACITY, (GOOD, b"", bytes.fromhex("00000005 00000200")), "READ CAPACITY")

    def test_a_growth_is_told_once(self):
        """CAPACITY DATA HAS CHANGED, but not to an INQUIRY."""
        self.operate("make 0 0 3")
        self.asks(write_10(2, 1), DONE, "a WRITE", SECTOR)
        self.operate("grow 0 0 6")
        self.asks(inquiry(1), (GOOD, b"", b"\x00"), "INQUIRY after a growth")
        self.asks(read_10(0, 6), check(6, 0x2A, 9), "the first READ after a growth")
        self.asks(read_10(0, 6), (GOOD, b"", bytes(1024) + SECTOR + bytes(1536)), "the second")
        self.asks(CAPACITY, (GOOD, b"", bytes.fromhex("00000005 00000200")), "READ CAPACITY")

    def test_two_growths_are_told_once(self):
        self.operate("make 0 0 6", "grow 0 0 30", "grow 0 0 36")
        self.asks(UNKNOWN, check(6, 0x2A, 9), "an unknown command after two growths")
        self.asks(UNKNOWN, check(5, 0x20, 0), "a second one")

    def test_a_growth_is_forgotten_with_its_unit(self):
        self.operate("make 0 0 6", "grow 0 0 40", "drop 0 0", "make 0 0 3")
        self.asks(READY, DONE, "a unit that was created again")
