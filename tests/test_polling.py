"""Sessions that look for their next command before they sleep (`--poll`): hosts are served as by others, and those that
are silent take no processor."""
import os
import time

from tests.harness import Case, HOSTS, program, read_10, rest_of, write_10

# Sectors of each unit, and the requests of each host that verifies.
SECTORS, REQUESTS = 100, 4000
# Seconds between two commands: less than the session polls, about as long, and more.
PAUSES = 0, 0.0002, 0.001, 0.05


def processor_seconds(pid):
    """The seconds of processors that a process has taken."""
    with open(f"/proc/{pid}/stat", encoding="ascii") as file:
        fields = file.read().rpartition(")")[2].split()
    return (int(fields[11]) + int(fields[12])) / os.sysconf("SC_CLK_TCK")


class Polling(Case):
    def test_hosts_that_verify(self):
        """Four hosts, each with one command in flight, compare all that they read with what they wrote."""
        units = [f"{host}:0:{SECTORS}" for host in range(HOSTS)]
        server = self.serve("--poll", "50", "--extents", "64", *units)
        plan = ["--hosts", HOSTS, "--sectors", SECTORS, "--requests", REQUESTS]
        ended = self.starts(program("bench_load"), "--verify", "--port", server.port, *plan).ended()
        self.wants((ended.status, ended.error), (0, ""), f"the hosts, who said {ended.out[-2000:]}")
        self.stops(server)

    def test_pauses(self):
        """An initiator reads what it wrote, however soon its next command comes."""
        server = self.serve("--poll", "1000", "--extents", "16", "0:0:24", doors=("operator", "iscsi"))
        initiator = self.kept(server.initiator(0))
        initiator.asks(bytes(6))
        for number in range(40):
            data = bytes([number]) * 1024
            _, said = initiator.asks(write_10(number % 20, 2), flags=0xA1, expected=1024, data=data)
            self.wants(said.status, 0, f"WRITE {number}")
            time.sleep(PAUSES[number % 4])
            found, said = initiator.asks(read_10(number % 20, 2), flags=0xC1, expected=1024)
            self.wants((found, said.status), (data, 0), f"READ {number}")
            time.sleep(PAUSES[number // 4 % 4])
        initiator.close()
        self.stops(server)

    def test_silent_hosts(self):
        """Their sessions sleep after a millisecond; a ping, the end of a silence and a stop come as they do else."""
        words = ["--poll", "1000", "--iscsi-ping", "2", "--idle-timeout", "3", "0:0:4", "1:0:4"]
        server = self.serve(*words, doors=("operator", "iscsi"))
        host, initiator = self.kept(server.log_in(0)), self.kept(server.initiator(1))
        for _ in range(100):
            host.asks(bytes(6))
            initiator.asks(bytes(6))
        begun, used = time.monotonic(), processor_seconds(server.pid)
        time.sleep(1.5)
        used = processor_seconds(server.pid) - used
        self.holds(used < 0.3, "a server of silent hosts takes less than 0.3 s of processors in 1.5 s", used)
        self.wants(initiator.receive().opcode, 0x20, "what comes to a silent initiator")
        passed = time.monotonic() - begun
        self.holds(1.5 < passed < 3, "a ping after 2 s", passed)
        self.wants(rest_of(host.link), b"", "what comes to a silent host")
        passed = time.monotonic() - begun
        self.holds(2.5 < passed < 6, "an end after 3 s", passed)
        self.stops(server)
