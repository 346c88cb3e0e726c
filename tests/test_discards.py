"""UNMAP, WRITE SAME and GET LBA STATUS over iSCSI: what is discarded reads as zeros, has no place, and is said to be
deallocated; all else stays."""
import os
import re
import struct
import tempfile

from tests.harness import TEST_UNIT_READY, Case, program, ran, read_10, write_10

GOOD = (0, b"")
# Small blocks have 2 sectors. (The unit of LUN 1 ends within one.)
SECTORS, BLOCKS = 4608, 2304
OPTIONS = ("--disks", "8", "--extents", "1024")


def descriptors(*ranges):
    """An UNMAP parameter list of these ranges, each an LBA and a number of blocks."""
    listed = b"".join(struct.pack(">QII", lba, count, 0) for lba, count in ranges)
    return struct.pack(">HHI", len(listed) + 6, len(listed), 0) + listed


def unmap(size, anchor=0):
    return struct.pack(">BBIBHB", 0x42, anchor, 0, 0, size, 0)


def write_same_10(flags, lba, count):
    return struct.pack(">BBIBHB", 0x41, flags, lba, 0, count, 0)


def write_same_16(flags, lba, count):
    return struct.pack(">BBQIBB", 0x93, flags, lba, count, 0, 0)


def get_lba_status(lba, size=24, control=0):
    return struct.pack(">BBQIBB", 0x9E, 0x12, lba, size, 0, control)


def status_data(lba, count, status):
    """GET LBA STATUS parameter data of one descriptor."""
    return struct.pack(">I4xQIB3x", 20, lba, count, status)


def runs_of(levels):
    """The runs of a unit with these levels, "-" for a block that isn't mapped: LBA, number, PROVISIONING STATUS."""
    return [(2 * run.start(), 2 * len(run[0]), int(run[0][0] == "-")) for run in re.finditer("-+|[^-]+", levels)]


class Discarding(Case):
    """What cases of a unit that is discarded share."""

    def served(self, *words, **how):
        self.server = self.serve(*words, doors=("operator", "http", "iscsi"), **how)
        self.initiator = self.kept(self.server.initiator(0))
        for lun in 0, 1:
            self.initiator.asks(TEST_UNIT_READY, lun)

    def sends(self, block, data, lun=0):
        """The status and sense of a command with its data."""
        said = self.initiator.asks(block, lun, 0xA1, len(data), data)[1]
        return said.status, said.code

    def does(self, block, data, wanted=GOOD, lun=0):
        self.wants(self.sends(block, data, lun), wanted, f"{block.hex()} with {len(data)} bytes")

    def reads(self, lba, count, lun=0):
        return self.initiator.asks(read_10(lba, count), lun, 0xC1, count * 512)[0]

    def levels(self, lun=0):
        return self.server.answers_to(f"levels 0 {lun}\n").strip()

    def looks(self, block, expected=24, lun=0):
        """The data of a command, its status, and its sense."""
        found, said = self.initiator.asks(block, lun, 0xC1, expected)
        return found, said.status, said.code

    def reports(self, lba, count, status, lun=0):
        """Looks that GET LBA STATUS from an LBA on reports this run."""
        wanted = (status_data(lba, count, status), *GOOD)
        self.wants(self.looks(get_lba_status(lba), lun=lun), wanted, f"the status from LBA {lba} of LUN {lun} on")

    def runs(self, lun=0):
        """The runs from LBA 0 on, each from the end of the one before, until an LBA is past the end of the unit."""
        found, lba = [], 0
        while (said := self.looks(get_lba_status(lba), lun=lun)) != (b"", 2, b"\x05\x21\x00"):
            self.wants((len(said[0]), *said[1:]), (24, *GOOD), f"GET LBA STATUS from LBA {lba} on")
            found.append(struct.unpack(">8xQIB3x", said[0]))
            self.holds(found[-1][0] == lba and found[-1][1], f"a run from LBA {lba} on", found[-1])
            lba += found[-1][1]
        return found

    def finish(self):
        self.initiator.close()
        self.stops(self.server)


class Discards(Discarding):
    def setUp(self):
        super().setUp()
        self.served(*OPTIONS, f"0:0:{SECTORS}", "0:1:63")

    def test_unmapped_blocks(self):
        """Sectors 1 to 6 of 8: two whole blocks lose their place, of two a half gets zeros. The next LUN stays."""
        for lun in 0, 1:
            self.does(write_10(0, 8), b"\xa5" * 4096, lun=lun)
        self.does(unmap(24), descriptors((1, 6)))
        sector = b"\xa5" * 512
        self.wants(self.reads(0, 8) == sector + bytes(6 * 512) + sector, True, "that sectors 1 to 6 are zeros")
        self.wants(self.reads(0, 8, 1) == sector * 8, True, "that the next LUN stays")
        self.wants(self.levels()[:5], "M--M-", "the levels of the first blocks")
        self.wants(self.levels(1)[:4], "MMMM", "those of the next LUN")
        self.finish()

    def test_ranges_in_order(self):
        """Each descriptor counts, and none where one of them is past the end, or names too many."""
        self.does(write_10(0, 64), b"\xa5" * 32768)
        self.does(unmap(40), descriptors((0, 4), (SECTORS - 1, 2)), (2, b"\x05\x21\x00"))
        self.does(unmap(40), descriptors((0, 4), (0, 1 << 20)), (2, b"\x05\x26\x00"))
        self.does(unmap(24, anchor=1), descriptors((0, 4)), (2, b"\x05\x24\x00"))
        self.wants(self.levels()[:32], "M" * 32, "the levels after three that were refused")
        self.does(unmap(56), descriptors((0, 4), (60, 4), (10, 2)))
        self.wants(self.levels()[:33], "--MMM-" + "M" * 24 + "---", "the levels after three ranges")
        self.finish()

    def test_by_r2t(self):
        """A list that comes after the command, as an R2T asks for it."""
        self.does(write_10(0, 4), b"\xa5" * 2048)
        data = descriptors((0, 2))
        tag = self.initiator.sends(unmap(24), flags=0xA1, expected=24)
        said = self.initiator.receive()
        self.wants((said.opcode, said.number(40), said.number(44)), (0x31, 0, 24), "an R2T of 24 bytes")
        words = (said.number(20), 0, self.initiator.exp_stat_sn, 0, 0, 0)
        self.initiator.send(0x05, 0x80, words, data, tag=tag)
        said = self.initiator.receive()
        self.wants((said.opcode, said.status), (0x21, 0), "the status after the list")
        self.wants(self.levels()[:3], "-M-", "the levels")
        self.finish()

    def test_one_block_to_all(self):
        """A whole unit is written, zeroed with blocks that stay, unmapped, and zeroed without a block."""
        sector = bytes(range(256)) * 2
        self.does(write_same_16(0, 0, SECTORS), sector)
        self.wants(self.reads(SECTORS - 4, 4) == sector * 4, True, "that the last sectors are written")
        self.wants(self.levels(), "M" * BLOCKS, "the levels of a written unit")
        self.does(write_same_10(0, 0, SECTORS), bytes(512))
        self.wants(self.levels(), "M" * BLOCKS, "those of a zeroed one")
        self.does(write_same_10(8, 2, 4), sector)
        self.does(write_same_10(8, 8, SECTORS - 8), bytes(512))
        self.wants(self.levels(), "MMMM" + "-" * (BLOCKS - 4), "those of one that is unmapped from sector 8 on")
        self.wants(self.reads(0, 10) == bytes(1024) + sector * 4 + bytes(2048), True, "that sectors 2 to 5 stay")
        self.does(write_same_16(9, 0, SECTORS), b"")
        self.wants(self.levels(), "-" * BLOCKS, "those of one that is unmapped without a block")
        self.does(write_same_16(1, 0, 4), b"")
        self.wants(self.levels()[:4], "MM--", "those of one that is written without a block")
        self.does(write_same_16(8, 0, 0), bytes(512), (2, b"\x05\x24\x00"))
        self.does(write_same_16(8, SECTORS - 1, 2), bytes(512), (2, b"\x05\x21\x00"))
        self.finish()

    def test_status_of_a_fresh_unit(self):
        """One deallocated run, from whichever LBA on, to the end; the next LUN has its own."""
        self.reports(0, SECTORS, 1)
        self.reports(7, SECTORS - 7, 1)
        self.reports(SECTORS - 1, 1, 1)
        self.reports(0, 63, 1, lun=1)
        self.reports(62, 1, 1, lun=1)
        self.wants(self.runs(), [(0, SECTORS, 1)], "the runs of a fresh unit")
        self.does(write_10(62, 1), b"\xa5" * 512, lun=1)
        self.wants(self.runs(1), [(0, 62, 1), (62, 1, 0)], "the runs of the next LUN, whose last block was written")
        self.does(write_10(0, 63), b"\xa5" * 512 * 63, lun=1)
        self.wants(self.runs(1), [(0, 63, 0)], "the run of the next LUN, which was written")
        self.reads(0, 64)
        self.wants(self.runs(), [(0, SECTORS, 1)], "the runs of a unit that was read")
        self.finish()

    def scatters(self):
        """Writes sectors 101, 199 to 204, and the last: of blocks 50, 99 to 102, and the last, some by a half."""
        for lba, count in (101, 1), (199, 6), (SECTORS - 1, 1):
            self.does(write_10(lba, count), b"\xa5" * 512 * count)

    def test_runs_of_written_blocks(self):
        """A WRITE of one sector maps its block. UNMAP of both halves, one by one, leaves a block that has zeros."""
        self.scatters()
        tail = [(206, SECTORS - 208, 1), (SECTORS - 2, 2, 0)]
        wanted = [(0, 100, 1), (100, 2, 0), (102, 96, 1), (198, 8, 0), *tail]
        self.wants(self.runs(), wanted, "the runs once three ranges were written")
        self.wants(wanted, runs_of(self.levels()), "what follows of the levels")
        self.does(unmap(24), descriptors((200, 5)))
        wanted[3:4] = [(198, 2, 0), (200, 4, 1), (204, 2, 0)]
        self.wants(self.runs(), wanted, "those once sectors 200 to 204 were unmapped")
        self.does(unmap(40), descriptors((198, 1), (199, 1)))
        self.wants(self.runs(), wanted, "those once sectors 198 and 199 were unmapped one by one")
        self.does(write_same_16(9, 199, 6), b"")
        self.wants(self.runs(), wanted, "those once sectors 199 to 204 were unmapped")
        self.does(write_same_16(9, 198, SECTORS - 198), b"")
        self.wants(self.runs(), [*wanted[:2], (102, SECTORS - 102, 1)], "those once all from sector 198 on were")
        self.finish()

    def test_status_from_within_a_run(self):
        """The LBA returned is the one asked for, and the number goes on to the end of its run."""
        self.scatters()
        for lba, count, status in (99, 1, 1), (101, 1, 0), (102, 96, 1), (103, 95, 1), (199, 7, 0), (205, 1, 0):
            self.reports(lba, count, status)
        self.reports(207, SECTORS - 209, 1)
        self.reports(SECTORS - 1, 1, 0)
        self.finish()

    def test_walk_over_many_runs(self):
        """Of 2,304 blocks each 18th is written, from block 1 on: 128 written runs and 129 others take 257 steps."""
        for lba in range(2, SECTORS, 36):
            self.does(write_10(lba, 1), b"\xa5" * 512)
        pairs = [((lba, 2, 0), (lba + 2, 34, 1)) for lba in range(2, SECTORS - 36, 36)]
        wanted = [(0, 2, 1), *(run for pair in pairs for run in pair), (SECTORS - 34, 2, 0), (SECTORS - 32, 32, 1)]
        found = self.runs()
        self.wants(len(found), 257, "how many runs there are")
        self.wants(found, wanted, "the runs")
        self.does(write_same_16(9, 0, SECTORS), b"")
        self.wants(self.runs(), [(0, SECTORS, 1)], "the runs once all is unmapped")
        self.finish()

    def test_status_is_cut(self):
        """The data are cut to the ALLOCATION LENGTH, and the PARAMETER DATA LENGTH isn't."""
        whole = status_data(3, SECTORS - 3, 1)
        for size in 0, 1, 8, 20, 23, 24, 25, 1 << 8, 1 << 16, 1 << 24, 0xFFFFFFFF:
            wanted = (whole[:size], *GOOD)
            self.wants(self.looks(get_lba_status(3, size), 64), wanted, f"an ALLOCATION LENGTH of {size}")
        self.finish()

    def test_refused_statuses(self):
        """An LBA past the end, one of more than 32 bits, no unit, NACA."""
        self.does(write_10(0, 1), b"\xa5" * 512)
        for lba in SECTORS, SECTORS + 1, 1 << 32, (1 << 33) + 2, (1 << 64) - 1:
            self.wants(self.looks(get_lba_status(lba)), (b"", 2, b"\x05\x21\x00"), f"LBA {lba}")
        self.wants(self.looks(get_lba_status(63), lun=1), (b"", 2, b"\x05\x21\x00"), "LBA 63 of the next LUN")
        self.wants(self.looks(get_lba_status(0), lun=2), (b"", 2, b"\x05\x25\x00"), "a LUN without a unit")
        self.wants(self.looks(get_lba_status(0, control=4)), (b"", 2, b"\x05\x24\x00"), "NACA")
        self.finish()

    def counted(self):
        """The counter of discarded blocks, as a metric and as JSON."""
        return int(self.server.sample("autoraid_discards_total")), self.server.status_json()["counters"]["discards"]

    def test_counter(self):
        """A block counts where all its sectors are discarded at once, whether or not it was written."""
        self.wants(self.counted(), (0, 0), "discards of a fresh array")
        self.does(write_10(0, 64), b"\xa5" * 32768)
        for block, data, total in (
            # (sectors 1 to 6 are blocks 1 and 2, and halves of 0 and 3)
            (unmap(24), descriptors((1, 6)), 2),
            (unmap(24), descriptors((8, 8)), 6),
            # (halves)
            (unmap(40), descriptors((20, 1), (21, 1)), 6),
            (unmap(24), descriptors((23, 2)), 6),
            (unmap(40), descriptors((30, 2), (40, 4)), 9),
            # (blocks that weren't written)
            (unmap(24), descriptors((1000, 20)), 19),
            (unmap(24), descriptors((1000, 0)), 19),
            (write_same_16(9, 49, 10), b"", 23),
            (write_same_10(8, 60, 4), bytes(512), 25),
            (write_same_10(0, 60, 4), bytes(512), 25),
            (write_same_10(8, 60, 4), b"\xa5" * 512, 25),
        ):
            self.does(block, data)
            self.wants(self.counted(), (total, total), f"discards after {block.hex()} {data.hex()}")
        self.does(unmap(24), descriptors((SECTORS - 2, 4)), (2, b"\x05\x21\x00"))
        self.does(unmap(24, anchor=1), descriptors((0, 4)), (2, b"\x05\x24\x00"))
        self.wants(self.counted(), (25, 25), "discards after two that were refused")
        self.does(write_same_16(9, 0, SECTORS), b"")
        self.wants(self.counted(), (25 + BLOCKS, 25 + BLOCKS), "discards of a whole unit after them")
        self.finish()


class LargeBlocks(Discarding):
    def test_runs_of_large_blocks(self):
        """A block of 128 sectors is mapped by a WRITE of one of them, and unmapped with 100 others on either side."""
        self.served("--geometry", "paper", "--extents", "4", "0:0:1024", "0:1:8")
        self.does(write_10(130, 1), b"\xa5" * 512)
        self.wants(self.runs(), [(0, 128, 1), (128, 128, 0), (256, 768, 1)], "the runs once a sector was written")
        self.does(unmap(24), descriptors((28, 328)))
        self.wants(self.runs(), [(0, 1024, 1)], "the runs once its block is unmapped")
        self.finish()


class CachedDiscards(Discarding):
    """The same by a write-back cache."""

    def setUp(self):
        super().setUp()
        self.served(*OPTIONS, "--cache", "4096", f"0:0:{SECTORS}", "0:1:63")

    def is_mapped_in_cache(self, operator):
        """Whether, of blocks that are said to be mapped, one has no home: it waits in the cache."""
        self.does(write_same_16(0, 100, 4000), b"\xa5" * 512)
        self.reports(100, 4000, 0)
        # (a block without a home now had none before)
        return "-" in operator.asks("levels 0 0")[0][50:2050]

    def test_cached_blocks_are_mapped(self):
        """Blocks that wait in the cache, without a home, are mapped; what is discarded of them isn't."""
        operator = self.kept(self.server.operator())
        is_seen = any(self.is_mapped_in_cache(operator) for _ in range(100))
        self.does(unmap(24), descriptors((201, 800)))
        wanted = [(0, 100, 1), (100, 102, 0), (202, 798, 1), (1000, 3100, 0), (4100, SECTORS - 4100, 1)]
        self.wants(self.runs(), wanted, "the runs once sectors 201 to 1000 were unmapped")
        self.does(unmap(24), descriptors((100, 4000)))
        self.wants(self.runs(), [(0, SECTORS, 1)], "the runs once all is unmapped")
        self.wants(is_seen, True, "whether a block without a home was mapped, at least once in 100 times")
        self.finish()


class StoredDiscards(Discards):
    """The same with a store, and that it lasts where the program is killed."""

    def setUp(self):
        Case.setUp(self)
        room = tempfile.TemporaryDirectory()
        self.addCleanup(room.cleanup)
        self.store = ("--store", os.path.join(room.name, "store"))
        ended = ran(program("autoraid"), "create", *self.store, *OPTIONS)
        self.wants(ended.status, 0, "the creation of a store")
        self.takes_up(f"0:0:{SECTORS}", "0:1:63")

    def takes_up(self, *units):
        self.served(*self.store, "--sync", "always", *units, audit=None, ending="closed")

    def test_kept_over_a_kill(self):
        self.does(write_10(0, 8), b"\xa5" * 4096)
        self.does(unmap(24), descriptors((2, 4)))
        self.initiator.close()
        self.server.kill()
        self.takes_up()
        sectors = b"\xa5" * 1024
        self.wants(self.reads(0, 8) == sectors + bytes(2048) + sectors, True, "that sectors 2 to 5 are zeros")
        self.wants(self.runs(), [(0, 2, 0), (2, 4, 1), (6, 2, 0), (8, SECTORS - 8, 1)], "the runs")
        self.finish()
