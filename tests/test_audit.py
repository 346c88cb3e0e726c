"""The audit at the end of a service: a transcript that differs from the history."""
import re

from tests.harness import CHECK, Case, Ended

# A READ (16) of one sector, at an LBA beyond each unit.
BEYOND = bytes.fromhex("88 00 0A11CE5EEDBADF00 00000001 00 00")


def changes(pid, found):
    """Changes the last byte of each copy of these bytes in a program's memory, each to another; returns how many."""
    with open(f"/proc/{pid}/maps", encoding="utf-8") as lines:
        parts = [re.match(r"(\w+)-(\w+) rw", line) for line in lines]
    places = []
    with open(f"/proc/{pid}/mem", "r+b", buffering=0) as memory:
        for begin, end in ((int(part[1], 16), int(part[2], 16)) for part in parts if part):
            memory.seek(begin)
            held = memory.read(end - begin)
            places += [begin + place.start() for place in re.finditer(re.escape(found), held)]
        for number, place in enumerate(places, 1):
            memory.seek(place + len(found) - 1)
            memory.write(bytes([number]))
    return len(places)


class Audit(Case):
    def test_a_transcript_that_differs(self):
        """The second command of host 1 is changed in its transcript and in the history, to two others."""
        server = self.serve("--extents", "16", "0:0:24", "1:0:8")
        host = self.kept(server.log_in(1))
        self.wants((host.is_ready(), host.asks(BEYOND).status), (True, CHECK), "two commands")
        host.close()
        self.wants(server.wait_for_none(), "", "sessions once the host has left")
        copies = changes(server.pid, BEYOND)
        self.holds(copies >= 2, "a copy in the transcript, and one in the history", copies)
        self.wants(server.answers_to("stop\n"), "fault: mismatch\n", "an operator's stop")
        self.wants(server.ended(), Ended(1, "closed mismatch 1 1\n", "mismatch\n"), "the server's end")
