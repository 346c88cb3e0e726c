"""The programs of real initiators: libiscsi's tools and tests, QEMU and its export by FUSE, fio, and mkfs.ext4. Those
that are missing are installed."""
import os
import shutil
import subprocess
import sys
import tempfile

from tests.harness import TARGET, Case, ran, waited

INSTALL_SECONDS = 90
PACKAGES = {
    "iscsi-ls": "libiscsi-bin",
    "qemu-img": "qemu-utils qemu-block-extra",
    "qemu-storage-daemon": "qemu-system-common",
    "fusermount3": "fuse3",
    "mkfs.ext4": "e2fsprogs",
    "fio": "fio",
}


def missing():
    """The tools that aren't there."""
    return [tool for tool in PACKAGES if not shutil.which(tool)]


def install(tools):
    """Installs the packages of these tools, if apt-get is there and can."""
    command = ["apt-get", "-o", "Acquire::http::Timeout=20", "-o", "Acquire::Retries=1", "-o", "DPkg::Lock::Timeout=60"]
    if os.geteuid() != 0:
        command = ["sudo", "-n", *command]
    packages = [package for tool in tools for package in PACKAGES[tool].split()]
    how = {"stdin": subprocess.DEVNULL, "stdout": subprocess.DEVNULL, "timeout": INSTALL_SECONDS, "check": False}
    how["env"] = {**os.environ, "DEBIAN_FRONTEND": "noninteractive"}
    for words in ["update"], ["install", "--yes", "--no-install-recommends", *packages]:
        try:
            subprocess.run([*command, *words], **how)
        except (OSError, subprocess.TimeoutExpired) as error:
            print(repr(error), file=sys.stderr)


class InitiatorCase(Case):
    """A case that needs these programs. It fails where they aren't there and can't be installed."""

    seconds = 300

    def setUp(self):
        super().setUp()
        if missing():
            install(missing())
        for tool in missing():
            self.fail(f"{tool} isn't there: apt-get install {PACKAGES[tool]}")

    def target(self, *words):
        """A server with doors for operators and iSCSI."""
        return self.serve(*words, doors=("operator", "iscsi"))

    def url(self, server, host, lun=0):
        return f"iscsi://127.0.0.1:{server.iscsi_port}/{TARGET}{host}/{lun}"

    def tool(self, *words):
        """The status of a tool, and all that it prints."""
        done = ran(*words, seconds=self.seconds, encoding="utf-8", errors="replace")
        return done.status, done.out + done.error

    def succeeds(self, *words):
        status, said = self.tool(*words)
        self.wants(status, 0, f"the status of {words}, which said {said[-1500:]}")
        return said

    def is_whole_again(self, server):
        said = waited(lambda: server.answers_to("health\n"), "whole\n")
        self.wants(said, "whole\n", "the health once a disk is rebuilt")

    def room(self):
        """A folder that is there until the case ends."""
        room = tempfile.TemporaryDirectory()
        self.addCleanup(room.cleanup)
        return room.name

    def exported(self, server):
        """Four units as block devices of QEMU, each at a socket in the folder that is returned."""
        room = self.room()
        for host in range(4):
            words = ["qemu-nbd", "-t", "-f", "raw", "-k", os.path.join(room, str(host)), self.url(server, host)]
            self.starts(*words, stdout=subprocess.DEVNULL, stderr=subprocess.DEVNULL)
        sockets = [os.path.join(room, str(host)) for host in range(4)]
        said = waited(lambda: all(map(os.path.exists, sockets)), True)
        self.wants(said, True, "whether each socket is there")
        return room

    def file_of(self, server, size):
        """Host 0's unit as a file, which QEMU exports by FUSE until the case ends, and the program that does."""
        file = os.path.join(self.room(), "unit")
        with open(file, "x", encoding="ascii"):
            pass
        unit = f"driver=iscsi,node-name=unit,transport=tcp,portal=127.0.0.1:{server.iscsi_port},target={TARGET}0,lun=0"
        export = f"type=fuse,id=export,node-name=unit,mountpoint={file},writable=on"
        # (a program that is killed leaves its mount)
        self.addCleanup(ran, "fusermount3", "-u", "-q", "-z", file)
        words = ["--blockdev", f"{unit},discard=unmap", "--export", export]
        exporter = self.starts("qemu-storage-daemon", *words, stderr=subprocess.STDOUT)
        said = waited(lambda: os.path.getsize(file), size)
        self.wants(said, size, f"the size of a unit as a file; its program said {exporter.line(0)!r}")
        return file, exporter

    def jobs(self, room):
        """fio's words for a job of each host."""
        uri = f"--uri=nbd+unix:///?socket={room}"
        return [word for host in range(4) for word in (f"--name=host{host}", f"{uri}/{host}")]
