"""Unsolicited data over iSCSI: WRITEs after InitialR2T=No, by PDUs, and what is read back."""
import random

from tests.harness import TARGET, TEST_UNIT_READY, Case, Initiator, read_10, write_10

FIRST_BURST, SIZE, NO_TAG = 4096, 8192, 0xFFFFFFFF
GOOD = (0x21, 0, 0)


class UnsolicitedData(Case):
    def setUp(self):
        super().setUp()
        self.server = self.serve("--extents", "16", "0:0:32", doors=("operator", "iscsi"))
        self.initiator = self.kept(Initiator(self.server.iscsi_port))
        keys = "InitialR2T=No", f"FirstBurstLength={FIRST_BURST}"
        said = self.initiator.log_in("InitiatorName=iqn.x", f"TargetName={TARGET}0", *keys)
        self.wants((said.login_status, said.pairs.get(b"InitialR2T")), (b"\0\0", b"No"), "InitialR2T=No")
        # (the first command reports the new session)
        self.initiator.asks(TEST_UNIT_READY)
        self.bytes = random.Random(7).randbytes(2 * SIZE)

    def finish(self):
        self.initiator.close()
        self.stops(self.server)

    def begin(self, lba):
        """Sends a WRITE that unsolicited data follow, and returns its tag."""
        return self.initiator.sends(write_10(lba, SIZE // 512), flags=0x21, expected=SIZE)

    def send_data(self, tag, place, data, number=0, flags=0x80, transfer_tag=NO_TAG):
        words = transfer_tag, 0, self.initiator.exp_stat_sn, 0, number, place
        self.initiator.send(0x05, flags, words, data, tag=tag)

    def send_first(self, tag, data):
        """Sends the unsolicited data of a WRITE in two PDUs."""
        self.send_data(tag, 0, data[:1024], flags=0)
        self.send_data(tag, 1024, data[1024:FIRST_BURST], number=1)

    def send_rest(self, tag, data):
        """Takes the R2T for what is behind them, sends that, and returns the answer's opcode, response and status."""
        asks = self.initiator.receive()
        found = asks.opcode, asks.tag, asks.number(40), asks.number(44)
        self.wants(found, (0x31, tag, FIRST_BURST, SIZE - FIRST_BURST), "the first R2T")
        self.send_data(tag, FIRST_BURST, data[FIRST_BURST:], transfer_tag=asks.number(20))
        said = self.initiator.receive()
        return said.opcode, said.response, said.status

    def is_stored(self, lba, data):
        found = self.initiator.asks(read_10(lba, len(data) // 512), flags=0xC1, expected=len(data))
        self.wants(found[0], data, "what is read back")

    def test_a_write(self):
        data = self.bytes[:SIZE]
        tag = self.begin(0)
        self.send_first(tag, data)
        self.wants(self.send_rest(tag, data), GOOD, "a WRITE")
        self.is_stored(0, data)
        self.finish()

    def test_data_before_their_turn(self):
        """The second WRITE's unsolicited data come before the data that are asked for of the first."""
        data, later = self.bytes[:SIZE], self.bytes[SIZE:]
        tag = self.begin(0)
        self.send_first(tag, data)
        second = self.begin(SIZE // 512)
        self.send_first(second, later)
        self.wants(self.send_rest(tag, data), GOOD, "the first WRITE")
        self.wants(self.send_rest(second, later), GOOD, "the second WRITE")
        self.is_stored(0, self.bytes)
        self.finish()

    def test_beyond_the_first_burst(self):
        """The session ends, and nothing is written."""
        self.send_data(self.begin(0), 0, self.bytes[:SIZE])
        self.wants(self.initiator.receive(), None, "what answers data beyond FirstBurstLength")
        self.finish()
