"""Task management over iSCSI, by PDUs that no tool sends: resets and aborts of commands that wait."""
from tests.harness import TEST_UNIT_READY, Case, read_10, write_10

# Of a response its opcode, response, status, sense (key, code, qualifier).
ATTENTION = (0x21, 0, 2, b"\x06\x29\x00")
READY = (0x21, 0, 0, b"")


class TaskManagement(Case):
    def setUp(self):
        super().setUp()
        self.server = self.serve("--extents", "16", "0:0:24", doors=("operator", "iscsi"))
        self.initiator = self.kept(self.server.initiator(0))

    def next_answers(self, count):
        """Of this many next answers opcode, response, status, sense."""
        pdus = [self.initiator.receive() for _ in range(count)]
        return [(pdu.opcode, pdu.response, pdu.status, pdu.code) for pdu in pdus]

    def is_reported_once(self, what):
        """TEST UNIT READY reports a reset, and then no more."""
        for wanted in ATTENTION, READY:
            self.initiator.sends(TEST_UNIT_READY)
            self.wants(self.next_answers(1), [wanted], f"TEST UNIT READY {what}")

    def finish(self):
        self.initiator.close()
        self.stops(self.server)

    def test_new_session(self):
        self.is_reported_once("in a new session")
        self.finish()

    def test_reset_of_a_full_window(self):
        """A full window that a reset drops opens again; the reset is reported once."""
        self.is_reported_once("in a new session")
        self.initiator.sends(write_10(0, 2), flags=0xA1, expected=1024)
        for _ in range(16):
            self.initiator.sends(read_10(0, 2), flags=0xC1, expected=1024)
        self.initiator.manages(5)
        said = [self.initiator.receive() for _ in range(18)]
        wanted = [(0x31, 0, 0), (0x22, 0, 0)] + [(0x20, 0, 0)] * 16
        found = [(pdu.opcode, pdu.response, pdu.status) for pdu in said]
        self.wants(found, wanted, "LOGICAL UNIT RESET of a full window")
        self.wants(said[-1].max_cmd_sn, self.initiator.cmd_sn + 15, "MaxCmdSN after it")
        self.is_reported_once("after a reset")
        self.finish()

    def test_reset_of_no_unit(self):
        self.initiator.manages(5, lun=5)
        self.wants(self.next_answers(1)[0][:2], (0x22, 2), "LOGICAL UNIT RESET of a LUN without a unit")
        self.finish()

    def test_abort_before_the_data(self):
        """A WRITE is aborted before its data come, by a request in CmdSN's order."""
        self.is_reported_once("in a new session")
        tag = self.initiator.sends(write_10(0, 2), flags=0xA1, expected=1024)
        self.initiator.manages(1, tag=tag, opcode=0x02)
        self.wants([one[:2] for one in self.next_answers(2)], [(0x31, 0), (0x22, 0)], "ABORT TASK in CmdSN's order")
        self.finish()
