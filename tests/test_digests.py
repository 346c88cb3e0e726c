"""CRC32C digests over iSCSI (RFC 7143, 7.8 and 13.1): what is agreed on, PDUs in both directions, wrong digests."""
import random
import struct
from operator import xor

from tests.harness import TARGET, TEST_UNIT_READY, Case, Initiator, read_10, rest_of, write_10

# The generator of CRC32C (RFC 7143, 13.1).
POLYNOMIAL = 0x11EDC6F41
# RFC 7143, B.4: bytes, and their digest in the order in which it is sent. The last one is a READ (10).
EXAMPLES = [
    (bytes(32), "aa36918a"),
    (b"\xFF" * 32, "43aba862"),
    (bytes(range(32)), "4e79dd46"),
    (bytes(range(31, -1, -1)), "5cdb3f11"),
    (struct.pack(">12I", 0x01C00000, 0, 0, 0, 0x14000000, 0x400, 0x14, 0x18, 0x28000000, 0, 0x02000000, 0), "563a96d9"),
]
# The bits of a byte in the other order.
REVERSED = bytes(int(f"{byte:08b}"[::-1], 2) for byte in range(256))


def remainder(number):
    """The remainder of a byte, times the 32nd power, by the generator."""
    number <<= 24
    for _ in range(8):
        number <<= 1
        number ^= POLYNOMIAL * (number >> 32)
    return number


REMAINDERS = [remainder(byte) for byte in range(256)]


def crc32c(covered):
    """The digest of bytes, as it is sent: of each byte the lowest bit is that of the highest power."""
    rest = 0xFFFFFFFF
    for byte in covered.translate(REVERSED):
        rest = rest << 8 & 0xFFFFFFFF ^ REMAINDERS[rest >> 24 ^ byte]
    return (rest ^ 0xFFFFFFFF).to_bytes(4, "big").translate(REVERSED)


def digest(covered):
    """The digest of a header or of padded data: without data there is none (RFC 7143, 11.2.3)."""
    return crc32c(covered) if covered else b""


def no_digest(_):
    return b""


def of_another(place):
    """What gives digests of other bytes: a bit of one has changed on the way."""

    def digest_of_another(covered):
        before = bytearray(covered)
        before[place] ^= 1
        return crc32c(before)

    return digest_of_another


NAME = "InitiatorName=iqn.x"
NO_TAG = 0xFFFFFFFF
GOOD = (0x21, 0, 0)
CRC = "CRC32C"
# Offered lists, and what is chosen: the first of a list that a target supports (RFC 7143, 6.2.1).
OFFERS = [
    ("CRC32C,None", "CRC32C"),
    ("CRC32C", "CRC32C"),
    ("None,CRC32C", "None"),
    ("None", "None"),
    ("Y-com.example.sum,CRC32C,None", "CRC32C"),
    ("CRC32,None,CRC32C", "None"),
]
# The longest data that the sessions here take, and sectors of a WRITE and a READ.
LONGEST, SECTORS = 1024, 24
INQUIRY_OF_FIVE = bytes([0x12, 0, 0, 0, 5, 0])
# A segment of a type that no RFC has given, with four bytes.
ADDITIONAL = b"\0\5\x3F\0more"


class Digested(Case):
    # More options of the server.
    options = ()

    def setUp(self):
        super().setUp()
        self.server = self.serve("--extents", "16", "0:0:24", *self.options, doors=("operator", "iscsi"))
        self.bytes = random.Random(7).randbytes(SECTORS * 512)

    def logs_in(self, header=CRC, data=CRC, keys=(), offers=None):
        """A session with these digests, by these offers or by their own names, and with other keys."""
        initiator = self.kept(Initiator(self.server.iscsi_port))
        offered = "HeaderDigest={}\0DataDigest={}".format(*(offers or (header, data)))
        pairs = offered, f"MaxRecvDataSegmentLength={LONGEST}", *keys
        said = initiator.log_in(NAME, f"TargetName={TARGET}0", *pairs)
        found = [said.login_status, *map(said.pairs.get, (b"HeaderDigest", b"DataDigest"))]
        self.wants(found, [b"\0\0", header.encode(), data.encode()], f"a login that offers {offered!r}")
        initiator.digests = [digest if chosen == CRC else no_digest for chosen in (header, data)]
        self.notes_headers(initiator)
        # (the first command reports the new session, with sense data)
        self.wants(initiator.asks(TEST_UNIT_READY)[1].code, b"\x06\x29\x00", "the first command")
        return initiator

    def notes_headers(self, initiator):
        """Has an initiator keep the header that it sent last."""
        of_header = initiator.digests[0]

        def noting(covered):
            initiator.header = covered[:48]
            return of_header(covered)

        initiator.digests[0] = noting

    def echoes(self, initiator, what):
        self.wants(initiator.ping(b"ping!").data, b"ping!", f"a NOP-In {what}")

    def pings(self, initiator, data=b"", **how):
        """Sends a NOP-Out, and leaves its answer."""
        words = NO_TAG, initiator.cmd_sn, initiator.exp_stat_sn
        initiator.send(0x40, 0x80, words, data, tag=0x5555, **how)

    def writes(self, initiator, data):
        """A WRITE with immediate data."""
        said = initiator.asks(write_10(0, len(data) // 512), flags=0xA1, expected=len(data), data=data)[1]
        self.wants((said.opcode, said.response, said.status), GOOD, "a WRITE with immediate data")

    def begins(self, initiator, data, flags=0xA1):
        """Begins a WRITE without immediate data, and returns its tag."""
        return initiator.sends(write_10(0, len(data) // 512), flags=flags, expected=len(data))

    def sends_data(self, initiator, tag, data, transfer_tag=NO_TAG, first=0, wrong=None):
        """Data-Out PDUs with these data, of no whole words each: of the last one the digest `wrong` (0, 1) is wrong."""
        for number, place in enumerate(range(0, len(data), 3001)):
            words = transfer_tag, 0, initiator.exp_stat_sn, 0, number, first + place
            is_last = place + 3001 >= len(data)
            if is_last and wrong is not None:
                initiator.digests[wrong] = of_another(5)
            initiator.send(0x05, 0x80 * is_last, words, data[place : place + 3001], tag=tag)

    def takes_request(self, initiator, tag, first, size):
        """Looks at an R2T, and returns its Target Transfer Tag."""
        asks = initiator.receive()
        found = asks.opcode, asks.tag, asks.number(40), asks.number(44)
        self.wants(found, (0x31, tag, first, size), "an R2T")
        return asks.number(20)

    def is_done(self, initiator, what):
        said = initiator.receive()
        self.wants((said.opcode, said.response, said.status), GOOD, what)

    def is_stored(self, initiator, data):
        """Looks at what a READ brings, in several PDUs."""
        tag, found, sizes = initiator.sends(read_10(0, len(data) // 512), flags=0xC1, expected=len(data)), b"", []
        while len(found) < len(data) and (said := initiator.receive()):
            self.wants((said.opcode, said.tag, said.number(40)), (0x25, tag, len(found)), "a Data-In PDU")
            found += said.data
            sizes.append(len(said.data))
        self.wants(found, data, "what is read")
        self.holds(max(sizes) <= LONGEST and len(sizes) > 1, f"several PDUs of at most {LONGEST} bytes", sizes)
        if not said.flags & 1:
            self.is_done(initiator, "the status of the READ")

    def is_served(self, initiator):
        """Looks that all kinds of PDUs are taken and well formed, with data and without, padded and not."""
        self.echoes(initiator, "with padded data")
        self.wants(initiator.ping().data, b"", "a NOP-In without data")
        self.writes(initiator, self.bytes[:1024])
        self.is_stored(initiator, self.bytes[:1024] + bytes(1024))
        tag = self.begins(initiator, self.bytes)
        transfer_tag = self.takes_request(initiator, tag, 0, len(self.bytes))
        self.sends_data(initiator, tag, self.bytes, transfer_tag)
        self.is_done(initiator, "a WRITE whose data were asked for")
        self.is_stored(initiator, self.bytes)
        data, said = initiator.asks(INQUIRY_OF_FIVE, flags=0xC1, expected=5)
        self.wants((len(data), said.status), (5, 0), "an INQUIRY of five bytes")
        self.is_named(initiator)

    def is_named(self, initiator, wanted="", hosts=(0,)):
        """Looks at the answer to a text request for targets, by RFC 7143, Appendix C."""
        text = f"SendTargets={wanted}\0".encode()
        initiator.send(0x44, 0x80, (NO_TAG, initiator.cmd_sn, initiator.exp_stat_sn), text, tag=0x4444)
        said = initiator.receive()
        address = f"TargetAddress=127.0.0.1:{self.server.iscsi_port},1\0"
        targets = "".join(f"TargetName={TARGET}{host}\0{address}" for host in hosts)
        self.wants((said.opcode, said.tag, said.data), (0x24, 0x4444, targets.encode()), "a Text Response")

    def is_ended(self, initiator, what):
        """Looks that a session has ended without an answer."""
        self.wants(rest_of(initiator.link), b"", what)

    def is_rejected(self, initiator, what):
        """Looks that the PDU that was sent last is rejected, as its data digest is wrong, and the session ends then.

        The Reject has reason 02h, the rejected header, and the next StatSN (RFC 7143, 7.8, 11.17 and 11.17.1).
        """
        header, stat_sn = initiator.header, initiator.exp_stat_sn
        initiator.digests[1] = digest
        said = initiator.receive()
        found = said and (said.opcode, said.response, said.tag, said.stat_sn, said.data)
        self.wants(found, (0x3F, 0x02, NO_TAG, stat_sn, header), what)
        self.is_ended(initiator, f"what comes after {what}")

    def finish(self):
        """Looks that a new session is served, and that the service ends well."""
        self.echoes(self.logs_in(), "of a new session")
        self.stops(self.server)


class Examples(Case):
    def test_examples(self):
        """The CRC32C of this file gives the digests of RFC 7143, B.4."""
        for covered, wanted in EXAMPLES:
            self.wants(crc32c(covered).hex(), wanted, f"the digest of {covered.hex()}")


class Negotiated(Digested):
    def test_both(self):
        """A login that offers CRC32C before None gets it for headers and data, and all PDUs of the session have it."""
        self.is_served(self.logs_in(offers=("CRC32C,None", "CRC32C,None")))
        self.finish()

    def test_headers_alone(self):
        """A session in which headers have digests and data have none."""
        self.is_served(self.logs_in(data="None"))
        self.finish()

    def test_data_alone(self):
        """A session in which data have digests and headers have none."""
        self.is_served(self.logs_in(header="None"))
        self.finish()

    def test_neither(self):
        """A session in which None was agreed on for both has PDUs as one that offers no digests."""
        self.is_served(self.logs_in("None", "None"))
        self.finish()

    def test_offers(self):
        """The first of an offered list that is supported is chosen, for headers and data apart, and then in use."""
        for number, (offer, chosen) in enumerate(OFFERS):
            other, other_chosen = OFFERS[number - 1]
            for headers, data in ((offer, chosen), (other, other_chosen)), ((other, other_chosen), (offer, chosen)):
                initiator = self.logs_in(headers[1], data[1], offers=(headers[0], data[0]))
                self.echoes(initiator, f"after {headers} for headers and {data} for data")
                initiator.close()
        self.finish()

    def test_without_an_offer(self):
        """A session whose login offers none has no digests: that is the default value of both keys."""
        initiator = self.kept(self.server.initiator(0))
        self.echoes(initiator, "without digests")
        self.finish()

    def test_discovery(self):
        """A session for discovery has the digests that it agrees on, and names all targets."""
        initiator = self.kept(Initiator(self.server.iscsi_port))
        offers = "HeaderDigest=CRC32C,None", "DataDigest=CRC32C,None"
        said = initiator.log_in(NAME, "SessionType=Discovery", *offers)
        found = [said.login_status, *map(said.pairs.get, (b"HeaderDigest", b"DataDigest"))]
        self.wants(found, [b"\0\0", b"CRC32C", b"CRC32C"], "a login for discovery")
        initiator.digests = [digest, digest]
        self.is_named(initiator, "All", range(4))
        self.finish()


class Right(Digested):
    def test_unsolicited_data(self):
        """Immediate data, unsolicited data and data that are asked for of one WRITE, in PDUs with padding."""
        initiator = self.logs_in(keys=("InitialR2T=No", "FirstBurstLength=8192"))
        tag = initiator.sends(write_10(0, SECTORS), flags=0x21, expected=len(self.bytes), data=self.bytes[:101])
        self.sends_data(initiator, tag, self.bytes[101:8192], first=101)
        transfer_tag = self.takes_request(initiator, tag, 8192, len(self.bytes) - 8192)
        self.sends_data(initiator, tag, self.bytes[8192:], transfer_tag, 8192)
        self.is_done(initiator, "a WRITE with data of all kinds")
        self.is_stored(initiator, self.bytes)
        self.finish()

    def test_additional_segments(self):
        """A header digest covers the additional header segments, too (RFC 7143, 11.2.3), and is after them."""
        for chosen in (CRC, CRC), (CRC, "None"), ("None", CRC):
            initiator = self.logs_in(*chosen)
            self.pings(initiator, b"ping!", ahs=ADDITIONAL)
            self.wants(initiator.receive().data, b"ping!", f"a NOP-In with {chosen} that answers additional segments")
            self.echoes(initiator, "after it")
            initiator.close()
        self.finish()

    def test_padding_of_other_bytes(self):
        """A data digest covers the padding as it was sent, also where it isn't zero."""
        initiator = self.logs_in()
        self.pings(initiator, b"ping!\xA5\x5A\xA5", size=5)
        self.wants(initiator.receive().data, b"ping!", "a NOP-In")
        self.echoes(initiator, "after it")
        self.finish()


    def test_other_answers(self):
        """A Reject, whose data are a header, and the answers to task management and to a logout have digests, too."""
        initiator = self.logs_in()
        initiator.send(0x5C, 0x80, (0, initiator.cmd_sn, initiator.exp_stat_sn), tag=0x6666)
        said = initiator.receive()
        self.wants((said.opcode, said.response, said.data[:2]), (0x3F, 5, b"\x5C\x80"), "a Reject")
        # (ABORT TASK of a command that isn't there)
        initiator.manages(1, tag=0x7070)
        said = initiator.receive()
        self.wants((said.opcode, said.response), (0x22, 1), "the answer to ABORT TASK")
        initiator.send(0x46, 0x80, (0, initiator.cmd_sn, initiator.exp_stat_sn), tag=0x6667)
        said = initiator.receive()
        self.wants((said.opcode, said.response), (0x26, 0), "the answer to a logout")
        self.is_ended(initiator, "what comes after it")
        self.finish()


class Pinged(Digested):
    options = "--iscsi-ping", "1"

    def test_pings_of_the_target(self):
        """A NOP-In that the target sends by itself has a header digest, and one that answers it is taken."""
        initiator = self.logs_in()
        for _ in range(2):
            said = initiator.receive()
            self.wants((said.opcode, said.tag, said.data), (0x20, NO_TAG, b""), "a NOP-In of the target")
            initiator.answers(said)
        self.echoes(initiator, "after two pings")
        self.finish()


class Wrong(Digested):
    def keeps(self, data):
        """Looks that a session that follows reads these data."""
        initiator = self.logs_in()
        self.is_stored(initiator, data)
        return initiator

    def test_header_of_a_write(self):
        """A WRITE whose header has changed in any part ends the session, and the unit has the former bytes."""
        former, new = self.bytes[:2048], self.bytes[2048:4096]
        initiator = self.logs_in()
        self.writes(initiator, former)
        # (its opcode, flags, lengths, LUN, tag, numbers, and block of a command)
        for place in 0, 1, 4, 7, 8, 15, 19, 23, 27, 32, 37, 47:
            initiator.digests[0] = of_another(place)
            initiator.sends(write_10(0, 4), flags=0xA1, expected=2048, data=new)
            self.is_ended(initiator, f"what answers a header whose byte {place} has changed")
            initiator = self.keeps(former)
        initiator.digests[0] = lambda covered: crc32c(covered)[::-1]
        initiator.sends(write_10(0, 4), flags=0xA1, expected=2048, data=new)
        self.is_ended(initiator, "what answers a header digest whose bytes are in the other order")
        self.keeps(former)
        self.finish()

    def test_lengths(self):
        """A WRITE whose lengths of data or of additional segments have grown on the way ends the session, undone."""
        former, new = self.bytes[:2048], self.bytes[2048:4096]
        initiator = self.logs_in()
        self.writes(initiator, former)
        # (bytes 4 and 7, each by one; what follows is as long as they say)
        for place, size, ahs in (4, 2048, bytes(4)), (7, 2049, b""):
            initiator.digests[0] = of_another(place)
            words = 2048, initiator.cmd_sn, initiator.exp_stat_sn, *struct.unpack(">4I", write_10(0, 4) + bytes(6))
            initiator.send(0x01, 0xA1, words, new.ljust(size, b"\0"), tag=0x6666, ahs=ahs)
            self.is_ended(initiator, f"what answers a header whose byte {place} has grown")
            initiator = self.keeps(former)
        self.finish()

    def test_header_without_data(self):
        """A NOP-Out without data, and a READ: neither is answered if a byte of the header digest has changed."""
        for place in range(4):
            flipped = bytes(place) + b"\x80" + bytes(3 - place)
            for is_read in False, True:
                initiator = self.logs_in()
                initiator.digests[0] = lambda covered, flipped=flipped: bytes(map(xor, crc32c(covered), flipped))
                if is_read:
                    initiator.sends(read_10(0, 1), flags=0xC1, expected=512)
                else:
                    self.pings(initiator)
                self.is_ended(initiator, f"what answers a header digest whose byte {place} has changed")
        self.finish()

    def test_additional_segments(self):
        """A header digest is wrong that doesn't cover the additional header segments, or not as they were sent."""
        for wrong in lambda covered: crc32c(covered[:48]), of_another(48), of_another(-1):
            initiator = self.logs_in()
            initiator.digests[0] = wrong
            self.pings(initiator, b"ping!", ahs=ADDITIONAL)
            self.is_ended(initiator, "what answers additional segments with a wrong digest")
        self.finish()

    def test_immediate_data(self):
        """A WRITE whose immediate data have changed is rejected and not done, and ends the session."""
        former, new = self.bytes[:2048], self.bytes[2048:4096]
        initiator = self.logs_in()
        self.writes(initiator, former)
        for place in 0, 1000, 2047:
            initiator.digests[1] = of_another(place)
            initiator.sends(write_10(0, 4), flags=0xA1, expected=2048, data=new)
            self.is_rejected(initiator, f"what answers immediate data whose byte {place} has changed")
            initiator = self.keeps(former)
        self.writes(initiator, new)
        self.is_stored(initiator, new)
        self.finish()

    def test_data_that_were_asked_for(self):
        """A WRITE isn't done if the last of its Data-Out PDUs has a wrong digest, of its header or of its data."""
        initiator = self.logs_in()
        self.writes(initiator, self.bytes)
        new = self.bytes[::-1]
        for wrong in 0, 1:
            tag = self.begins(initiator, new)
            transfer_tag = self.takes_request(initiator, tag, 0, len(new))
            self.sends_data(initiator, tag, new, transfer_tag, wrong=wrong)
            looks = self.is_rejected if wrong else self.is_ended
            looks(initiator, f"what answers a Data-Out PDU whose digest {wrong} is wrong")
            initiator = self.keeps(self.bytes)
        self.finish()

    def test_unsolicited_data(self):
        """A WRITE isn't done if the last of its unsolicited Data-Out PDUs has a wrong digest."""
        keys = "InitialR2T=No", "FirstBurstLength=65536"
        initiator = self.logs_in(keys=keys)
        self.writes(initiator, self.bytes)
        new = self.bytes[::-1]
        for wrong in 0, 1:
            tag = self.begins(initiator, new, flags=0x21)
            self.sends_data(initiator, tag, new, wrong=wrong)
            looks = self.is_rejected if wrong else self.is_ended
            looks(initiator, f"what answers an unsolicited Data-Out PDU whose digest {wrong} is wrong")
            self.keeps(self.bytes).close()
            initiator = self.logs_in(keys=keys)
        self.finish()

    def test_padding(self):
        """A data digest is wrong that doesn't cover the padding, or not as it was sent: a NOP-Out is rejected."""
        for wrong in lambda covered: crc32c(covered[:5]), of_another(5), of_another(7), of_another(0):
            initiator = self.logs_in()
            initiator.digests[1] = wrong
            self.pings(initiator, b"ping!")
            self.is_rejected(initiator, "what answers padded data with a wrong digest")
        self.finish()

    def test_headers_alone(self):
        """In a session without data digests a wrong header digest ends it, too."""
        initiator = self.logs_in(data="None")
        initiator.digests[0] = of_another(19)
        self.pings(initiator, b"ping!")
        self.is_ended(initiator, "what answers a wrong header digest")
        self.finish()

    def test_data_alone(self):
        """In a session without header digests a PDU with a wrong data digest is rejected, and ends it, too."""
        initiator = self.logs_in(header="None")
        initiator.digests[1] = of_another(0)
        self.pings(initiator, b"ping!")
        self.is_rejected(initiator, "what answers a wrong data digest")
        self.finish()
