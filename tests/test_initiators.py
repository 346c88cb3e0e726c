"""QEMU and fio as initiators over iSCSI, while disks fail and are rebuilt: file systems come back, and fio verifies
what it reads. What QEMU and ext4 discard has no place, and QEMU sees holes there."""
import json
import os
import re
import shutil
import subprocess
import time

from tests.harness import ROOT, ran
from tests.initiators import InitiatorCase

FIO = "fio --ioengine=nbd --rw=randwrite --verify=crc32c --verify_fatal=1 --randrepeat=0 --verify_state_save=0".split()
SMALL = "--bsrange=512-65536 --blockalign=512 --iodepth=4 --loops=4".split()
# WRITEs that are longer than an initiator's first burst, so that commands come while the data of others are collected.
LARGE = "--bs=256k --iodepth=16 --loops=4".split()


class FileSystems(InitiatorCase):
    def comes_back(self, host, lun):
        """A file system goes to a unit and comes back, through a cache, while a disk fails and is rebuilt."""
        sectors, room = 32_768, self.room()
        server = self.target("--geometry", "paper", "--extents", "32", "--cache", "64", f"{host}:{lun}:{sectors}")
        image, back, at = os.path.join(room, "image"), os.path.join(room, "back"), self.url(server, host, lun)
        with open(image, "wb") as file:
            file.truncate(sectors * 512)
        self.succeeds("mkfs.ext4", "-q", "-d", os.path.join(ROOT, "docs"), image)
        self.succeeds("qemu-img", "convert", "-n", "-f", "raw", "-O", "raw", image, at)
        self.wants(server.answers_to(f"out {host}\n"), "ok\n", "an operator's `out`")
        self.succeeds("qemu-img", "compare", "-f", "raw", "-F", "raw", image, at)
        self.wants(server.answers_to(f"replace {host}\n"), "ok\n", "an operator's `replace`")
        self.succeeds("qemu-img", "convert", "-f", "raw", "-O", "raw", at, back)
        self.succeeds("e2fsck", "-fn", back)
        self.is_whole_again(server)
        self.stops(server)

    def test_file_system(self):
        self.comes_back(0, 0)

    def test_file_system_of_another_host(self):
        self.comes_back(2, 7)


def read(path):
    with open(path, "rb") as file:
        return file.read()


class Discarded(InitiatorCase):
    # What QEMU says of an extent: whether it has data, whether it is zeros.
    DATA, HOLE = (True, False), (False, True)

    def extents(self, at):
        """What `qemu-img map` shows, with neighbours that are alike as one: the end in KiB, and what it says of it."""
        done = ran("qemu-img", "map", "--output=json", "-f", "raw", at)
        self.wants((done.status, done.error), (0, ""), "qemu-img map")
        ends, last = [], 0
        for extent in json.loads(done.out):
            self.wants(extent["start"], last, "the start of an extent")
            last, kind = last + extent["length"], (extent["data"], extent["zero"])
            if ends and ends[-1][1] == kind:
                ends.pop()
            ends.append((last / 1024, kind))
        return ends

    def maps(self, *options):
        """QEMU writes and discards parts of a unit with blocks of 1 KiB, and maps it."""
        server = self.target("--disks", "8", "--extents", "512", *options, "0:0:4096")
        unit, orders = self.url(server, 0), []
        self.wants(self.extents(unit), [(2048, self.HOLE)], "a fresh unit")
        for order in (
            "write -P 0xa5 64k 256k",
            "discard 128k 64k",
            "discard 256k 1k",
            # (a half of block 300 and one of the next)
            "discard 307712 1k",
            "write -z -u 272k 16k",
            "write -z 288k 8k",
            "write -P 0xa5 1M 1k",
            # (the second half of block 1536)
            "write -P 0xa5 1573376 512",
        ):
            orders += ["-c", order]
        self.succeeds("qemu-io", "-f", "raw", "-d", "unmap", *orders, unit)
        # Holes and data in turn.
        ends = 64, 128, 192, 256, 257, 272, 288, 320, 1024, 1025, 1536, 1537, 2048
        wanted = [(end, self.DATA if at % 2 else self.HOLE) for at, end in enumerate(ends)]
        self.wants(self.extents(unit), wanted, "the extents")
        self.succeeds("qemu-io", "-f", "raw", "-d", "unmap", "-c", "discard 0 2M", unit)
        self.wants(self.extents(unit), [(2048, self.HOLE)], "a unit that was discarded")
        self.stops(server)

    def test_holes(self):
        self.maps()

    def test_holes_with_a_cache(self):
        self.maps("--cache", "1024")

    def holes(self, at):
        """The blocks of 1 KiB that aren't mapped."""
        found, first = set(), 0
        for end, kind in self.extents(at):
            found |= set(range(int(first), int(end))) if kind == self.HOLE else set()
            first = end
        return found

    def free_blocks(self, file):
        """The blocks that an ext4 doesn't use."""
        free = set()
        for runs in re.findall(r"^  Free blocks: (\d.*)$", self.succeeds("dumpe2fs", file), re.MULTILINE):
            for first, last in re.findall(r"(\d+)(?:-(\d+))?", runs):
                free |= set(range(int(first), int(last or first) + 1))
        return free

    def trims(self, file, counter):
        """Discards what an ext4 doesn't use, and looks that this isn't mapped any more. Returns the holes."""
        free, counted = self.free_blocks(file), counter()
        self.succeeds("e2fsck", "-fy", "-E", "discard", file)
        self.succeeds("e2fsck", "-fn", file)
        self.holds(counter() - counted >= len(free), f"at least {len(free)} more discards", counter() - counted)
        holes = self.holes(file)
        self.wants(self.free_blocks(file), free, "the free blocks")
        self.wants(free - holes, set(), "the free blocks that are mapped")
        return holes

    def removes(self, file, paths):
        """Removes copies of these files from an ext4: the blocks of 1 KiB that this frees."""
        free = self.free_blocks(file)
        for path in paths:
            self.succeeds("debugfs", "-w", "-R", f"rm /{os.path.basename(path)}", file)
        freed, least = self.free_blocks(file) - free, sum(-(-os.path.getsize(path) // 1024) for path in paths)
        self.holds(len(freed) >= least, f"at least {least} blocks are freed", len(freed))
        return freed

    def test_ext4_is_trimmed(self):
        """ext4's own tools make one on a unit, fill it, remove every second file, and trim it."""
        if not os.path.exists("/dev/fuse"):
            # (QEMU can't export a unit as a file here)
            return
        folder, size = shutil.copytree(os.path.join(ROOT, "docs"), os.path.join(self.room(), "docs")), 8 << 20
        words = ["--disks", "8", "--extents", "1024", f"0:0:{size // 512}"]
        server = self.serve(*words, doors=("operator", "http", "iscsi"))
        file, exporter = self.file_of(server, size)
        self.succeeds("mkfs.ext4", "-q", "-b", "1024", "-d", folder, file)
        paths = [os.path.join(folder, name) for name in sorted(os.listdir(folder))]
        freed = self.removes(file, paths[::2])
        self.wants(freed & self.holes(file), set(), "the removed blocks that aren't mapped before the trim")
        holes = self.trims(file, lambda: int(server.sample("autoraid_discards_total")))
        exporter.process.terminate()
        self.wants(exporter.ended().status, 0, "the status of the program that exports")
        unit, back, room = self.url(server, 0), os.path.join(self.room(), "back"), self.room()
        self.wants(self.holes(unit), holes, "the holes by iSCSI")
        self.succeeds("qemu-img", "convert", "-f", "raw", "-O", "raw", unit, back)
        self.succeeds("debugfs", "-R", f"rdump / {room}", back)
        kept = {name: read(os.path.join(room, name)) for name in os.listdir(room) if name != "lost+found"}
        self.wants(kept, {os.path.basename(path): read(path) for path in paths[1::2]}, "the files that stay")
        self.stops(server)

    def test_discards_and_zeros(self):
        """QEMU discards and zeroes parts of a unit, whose blocks of 1 KiB have no place then."""
        server = self.target("--disks", "8", "--extents", "512", "0:0:4096")
        orders = ["write -P 0xa5 0 1M", "discard 64k 128k", "write -z -u 256k 64k", "read -P 0 64k 128k"]
        orders += ["read -P 0 256k 64k", "read -P 0xa5 0 64k", "read -P 0xa5 192k 64k", "read -P 0xa5 320k 704k"]
        words = [word for order in orders for word in ("-c", order)]
        self.succeeds("qemu-io", "-f", "raw", "-d", "unmap", *words, self.url(server, 0))
        levels = "M" * 64 + "-" * 128 + "M" * 64 + "-" * 64 + "M" * 704 + "-" * 1024
        self.wants(server.answers_to("levels 0 0\n"), f"{levels}\n", "the levels")
        self.stops(server)


class Verified(InitiatorCase):
    def served(self, *options, sectors):
        return self.target(*options, *(f"{host}:0:{sectors}" for host in range(4)))

    def lose_disks(self, busy, server):
        """Has one disk after another fail and be rebuilt while a program runs, and answers how often."""
        rebuilt = 0
        while busy.is_running():
            said = server.answers_to(f"out {rebuilt % 4}\nreplace {rebuilt % 4}\n")
            self.wants(said, "ok\nok\n", "an operator's `out` and `replace`")
            self.is_whole_again(server)
            rebuilt += 1
            time.sleep(0.2)
        return rebuilt

    def verified(self, *options, sectors):
        """fio verifies what it reads on four hosts at once, while disks fail and are rebuilt."""
        server = self.served(*options, sectors=sectors)
        room = self.exported(server)
        words = [*FIO, *SMALL, f"--size={sectors * 512}", *self.jobs(room)]
        busy = self.starts(*words, stderr=subprocess.STDOUT)
        rebuilt = self.lose_disks(busy, server)
        ended = busy.ended()
        self.wants(ended.status, 0, f"fio's status, which said {ended.out[-1500:]}")
        self.holds(rebuilt > 0, "disks failed and were rebuilt beside fio", rebuilt)
        self.stops(server, seconds=120)

    def test_small_blocks(self):
        self.verified("--disks", "8", "--extents", "1024", sectors=4096)

    def test_large_blocks_in_a_cache(self):
        self.verified("--geometry", "paper", "--extents", "48", "--cache", "64", sectors=16384)

    def test_commands_sent_ahead(self):
        """Long commands, up to eight of a host in flight: as many as its unit holds."""
        server = self.served("--disks", "8", "--extents", "1024", sectors=4096)
        self.succeeds(*FIO, *LARGE, "--size=2m", *self.jobs(self.exported(server)))
        self.stops(server)
