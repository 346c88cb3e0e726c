"""Initiators that keep no rule of RFC 7143, beside one that does and notices nothing."""
import random
import struct

from tests.harness import TARGET, TEST_UNIT_READY, Case, Initiator, answered, most_resident

NAME = "InitiatorName=iqn.x"
TARGET_0 = f"TargetName={TARGET}0"
# What a login has, and how it is answered: Status-Class and Status-Detail of RFC 7143, 11.13.5.
LOGINS = [
    ("no key", [], {}, "0207"),
    ("no name of an initiator", [TARGET_0], {}, "0207"),
    ("no name of a target", [NAME], {}, "0207"),
    ("an unknown target", [NAME, "TargetName=iqn.2026-11.example.autoraid:nobody"], {}, "0203"),
    ("an unknown type of session", [NAME, TARGET_0, "SessionType=Odd"], {}, "0209"),
    ("a session that isn't there", [NAME, TARGET_0], {"tsih": 5}, "020a"),
    ("an authentication that isn't offered", [NAME, TARGET_0, "AuthMethod=CHAP"], {"flags": 0x81}, "0201"),
    ("a stage that isn't there", [NAME, TARGET_0], {"flags": 0x86}, "0200"),
    ("the seat of another session", [NAME, f"TargetName={TARGET}1"], {"isid": 0x400001370001}, "0302"),
]
# What is no PDU of a login.
NO_PDUS = b"GET / HTTP/1.1\r\nHost: a\r\n\r\n" * 4, random.Random(7).randbytes(4096), bytes(48 * 3), b"\xFF" * 480
UNKNOWN_OPCODES = 0x3E, 0x1F, 0x1C


def login_request():
    """A whole Login Request."""
    text = f"{NAME}\0{TARGET_0}\0".encode()
    head = struct.pack(">BBHIQI7I", 0x43, 0x87, 0, len(text), 0x4000013700000000, 0, 0, 1, 0, 0, 0, 0, 0)
    return head + text + bytes(-len(text) % 4)


def announces_most(initiator):
    """Sends a login that announces 16 MiB."""
    initiator.send(0x43, 0x87, (0, 1, 0), b"InitiatorName", size=0xFFFFFF)


def is_refusal(said):
    """Whether a target says nothing, or a Login Response that refuses, or a Reject."""
    return not said or said[0] == 0x3F or said[0] == 0x23 and said[36] != 0


class BadPdus(Case):
    def setUp(self):
        super().setUp()
        self.server = self.serve("--extents", "16", "0:0:24", "1:0:8", doors=("operator", "iscsi"))
        self.beside = self.kept(self.server.initiator(1))

    def finish(self):
        """Looks that the initiator beside is answered, and that the service ends well."""
        self.wants(self.beside.ping(b"still there").data, b"still there", "NOP-In beside")
        self.beside.close()
        self.wants(self.server.wait_for_none(), "", "sessions once all have left")
        self.stops(self.server)

    def connected(self):
        return self.kept(Initiator(self.server.iscsi_port))

    def test_refused_logins(self):
        for what, pairs, how, status in LOGINS:
            with self.subTest(what):
                said = self.connected().log_in(*pairs, **how)
                self.wants((said.opcode, said.login_status.hex()), (0x23, status), what)
        self.finish()

    def test_newer_version(self):
        initiator = self.connected()
        initiator.link.sendall(struct.pack(">BBBB", 0x43, 0x87, 1, 1) + bytes(44))
        self.wants(initiator.receive().login_status.hex(), "0205", "a login of version 1 at least")
        self.finish()

    def test_command_before_the_login(self):
        initiator = self.connected()
        initiator.sends(TEST_UNIT_READY)
        self.wants(initiator.receive().login_status.hex(), "020b", "a command before the login")
        self.finish()

    def test_unknown_keys(self):
        """A key that isn't known is answered NotUnderstood, and a digest that isn't known Reject."""
        initiator = self.connected()
        said = initiator.log_in(NAME, TARGET_0, "X-unknown=1", "HeaderDigest=CRC-16")
        found = said.login_status.hex(), said.pairs.get(b"X-unknown"), said.pairs.get(b"HeaderDigest")
        self.wants(found, ("0000", b"NotUnderstood", b"Reject"), "the answers to these keys")
        initiator.close()
        self.finish()

    def test_unknown_opcodes(self):
        """Each is rejected with its header, as a command that isn't supported, and the session goes on."""
        initiator = self.kept(self.server.initiator(0))
        for opcode in UNKNOWN_OPCODES:
            initiator.send(opcode, 0x80)
            said = initiator.receive()
            self.wants((said.opcode, said.response, said.data[0]), (0x3F, 0x05, opcode), f"opcode {opcode:02X}h")
        self.wants(initiator.ping(b"and on").data, b"and on", "NOP-In after them")
        initiator.close()
        self.finish()

    def test_logout(self):
        """It is answered, and the connection ends."""
        initiator = self.kept(self.server.initiator(0))
        initiator.send(0x06, 0x80, (0, initiator.cmd_sn, initiator.exp_stat_sn), tag=3)
        said = initiator.receive()
        self.wants((said.opcode, said.response, said.tag), (0x26, 0, 3), "a logout")
        self.wants(initiator.receive(), None, "what follows it")
        self.finish()

    def test_no_pdus(self):
        for sent in NO_PDUS:
            with self.subTest(sent[:16]):
                said = answered(self.server.iscsi_port, sent)
                self.holds(is_refusal(said), "nothing, or a refusal", said[:60])
        self.finish()

    def test_longest_data_announced(self):
        """A login that announces 16 MiB takes no such memory."""
        before = most_resident(self.server.pid)
        for _ in range(8):
            initiator = self.connected()
            announces_most(initiator)
            initiator.close()
        used = most_resident(self.server.pid) - before
        self.holds(used < 8 * 1024, "less than 8 MiB more are resident", f"{used} KiB")
        self.finish()

    def test_login_cut_at_each_byte(self):
        """A Login Request that ends before its last byte is not answered."""
        whole = login_request()
        said = {answered(self.server.iscsi_port, whole[:end]) for end in range(len(whole))}
        self.wants(said, {b""}, "the answers to a login that is cut")
        self.finish()
