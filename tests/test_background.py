"""What a served array does by itself: rebuilding, destaging, rests between; locks that orders, looks and hosts take."""
import threading
import time

from tests.harness import CHECK, GOOD, Case, most_resident, waited

# MODE SENSE (6) without block descriptors: the Caching page, whose third byte has WCE in bit 2.
CACHING_PAGE = bytes.fromhex("1A 08 08 00 18 00")


class Background(Case):
    def watched(self, *words, doors=("operator", "http")):
        return self.serve(*words, doors=doors)

    def cached(self, server):
        return int(server.sample("autoraid_cached_blocks"))

    def test_rebuild_without_an_order(self):
        """A replaced disk is rebuilt with no order of an operator; a host reads its bytes throughout."""
        server = self.watched("--extents", "64", "0:0:200")
        host = self.kept(server.log_in(0))
        self.wants(host.writes(0, b"r" * 512 * 200).status, GOOD, "a WRITE")
        self.wants(server.answers_to("out 2\nreplace 2\n"), "ok\nok\n", "a disk that is taken out and replaced")
        seen, wrong, begun = set(), 0, time.monotonic()
        while (health := server.get("/healthz/whole")[2]) != "whole\n":
            seen.add(health[:12])
            wrong += host.reads(0, 200).data != b"r" * 512 * 200
        self.holds(seen <= {"out 2\n", "rebuilding 2"}, "the disk is out or rebuilt", seen)
        self.wants(wrong, 0, "READs that differ meanwhile")
        passed = time.monotonic() - begun
        self.holds(passed < 30, "64 extents are rebuilt within 30 s", f"{passed:.1f} s")
        self.wants(host.reads(0, 200).data, b"r" * 512 * 200, "a READ after it")

    def test_destaging_without_an_order(self):
        """A hundred cached blocks are destaged with no order of an operator."""
        server = self.watched("--cache", "128", "--extents", "64", "0:0:200")
        host = self.kept(server.log_in(0))
        self.wants(host.writes(0, b"c" * 512 * 200).status, GOOD, "a WRITE of a hundred blocks")
        self.wants(waited(lambda: self.cached(server), 0), 0, "cached blocks in the end")
        destages = int(server.sample("autoraid_destages_total"))
        self.holds(destages >= 100, "at least 100 destages", destages)
        self.wants(host.reads(0, 200).data, b"c" * 512 * 200, "a READ of destaged blocks")

    def test_blocks_wait_in_the_cache(self):
        """Right after a long WRITE blocks are cached, if there is a cache."""
        for cache in 1024, 0:
            server = self.watched("--cache", cache, "--extents", "512", "0:0:2000")
            host, most = self.kept(server.log_in(0)), 0
            for _ in range(20):
                host.writes(0, b"w" * 512 * 2000)
                most = max(most, self.cached(server))
            self.wants(most > 0, cache > 0, f"whether blocks are seen in a cache of {cache}")
            host.close()
            self.stops(server, [20, 0, 0, 0])

    def test_cache_is_told(self):
        """An initiator learns of the write-back cache, so that it flushes it."""
        for cache, wanted in (64, 4), (0, 0):
            server = self.serve("--cache", cache, "--extents", "16", "0:0:24", doors=("operator", "iscsi"))
            initiator = self.kept(server.initiator(0))
            initiator.asks(bytes(6))
            data, said = initiator.asks(CACHING_PAGE, flags=0xC1, expected=24)
            found = data[4:6], data[6] & 4, said.status
            self.wants(found, (b"\x08\x12", wanted, GOOD), f"the page with a cache of {cache}")

    def test_commands_beside_rests(self):
        """While maintenance rests, for up to 16 ms at a time, no command waits for it."""
        server = self.serve("0:0:8")
        host, took = self.kept(server.log_in(0)), []
        for _ in range(51):
            # (a command ends the rest; by the next one there is another)
            time.sleep(0.03)
            begun = time.monotonic()
            self.wants(host.is_ready(), True, "TEST UNIT READY")
            took.append(time.monotonic() - begun)
        self.holds(sorted(took)[25] < 0.004, "most commands take less than 4 ms", took)

    def test_orders_beside_looks(self):
        """Orders and looks end, whichever lock each takes first, also where both wait for a host's long command."""
        words = "--geometry", "paper", "--extents", "64", "0:0:65535"
        server = self.serve(*words, doors=("operator", "http"), audit="off")
        host, is_over, said = self.kept(server.log_in(0)), threading.Event(), []

        def look():
            while not is_over.is_set():
                said.append(server.get("/status.json")[0])

        def order(operator):
            while not is_over.is_set():
                said.extend(operator.asks("flush"))

        threads = [threading.Thread(target=look, daemon=True) for _ in range(3)]
        operators = [self.kept(server.operator()) for _ in range(3)]
        threads += [threading.Thread(target=order, args=(operator,), daemon=True) for operator in operators]
        for thread in threads:
            thread.start()
        for _ in range(8):
            self.wants(host.writes(0, bytes(512 * 65535)).status, GOOD, "a WRITE of 32 MiB")
        is_over.set()
        for thread in threads:
            thread.join()
        self.wants(set(said), {200, "idle"}, "the status of looks, and answers to orders")
        self.stops(server, [8, 0, 0, 0])

    def test_stop_of_an_idle_server(self):
        server = self.serve("0:0:8", doors=("operator", "http", "iscsi"))
        time.sleep(1)
        begun = time.monotonic()
        self.stops(server, [0, 0, 0, 0])
        passed = time.monotonic() - begun
        self.holds(passed < 4, "an idle server stops within 4 s", f"{passed:.1f} s")

    def test_memory_of_long_reads(self):
        """Four hosts that read 32 MiB at once, again and again, take no more memory after the first time."""
        units = [f"{host}:0:65535" for host in range(4)]
        server = self.serve("--geometry", "paper", "--extents", "64", *units, audit="off")
        hosts, after = [self.kept(server.log_in(number)) for number in range(4)], []
        for _ in range(5):
            for host in hosts:
                host.sends(bytes.fromhex("88 00 0000000000000000 0000FFFF 00 00"))
            said = [host.receives() for host in hosts]
            self.wants([(reply.status, len(reply.data)) for reply in said], [(GOOD, 65535 * 512)] * 4, "long READs")
            after.append(server.resident())
        self.holds(after[-1] - after[0] < 40 * 1024, "no more memory after later rounds, in KiB", after)

    def test_no_memory_for_a_refused_read(self):
        """A session lends memory for READs of up to 1 MiB: for one of 32 MiB that is refused it allocates none."""
        server = self.serve("--extents", "16", "0:0:8", audit="off")
        host = self.kept(server.log_in(0))
        self.wants(host.is_ready(), True, "TEST UNIT READY")
        before = most_resident(server.pid)
        self.wants(host.reads(0, 65535).status, CHECK, "a READ beyond the unit")
        more = most_resident(server.pid) - before
        self.holds(more < 16 * 1024, "less than 16 MiB more for a READ that is refused, in KiB", more)


class Names(Case):
    """Units of two arrays aren't taken for one."""

    def serial_number(self):
        server = self.serve("--extents", "16", "0:0:24", doors=("operator", "iscsi"))
        initiator = self.kept(server.initiator(0))
        data, said = initiator.asks(bytes.fromhex("12 01 80 00 FF 00"), flags=0xC1, expected=255)
        self.wants((data[:2], said.status), (b"\x00\x80", GOOD), "the Unit Serial Number page")
        units = server.answers_to("units\n").splitlines()
        wanted = f"unit 0 0 sectors 24 blocks 12 written 0 cached 0 serial {data[4:].decode()}"
        self.wants(units, [wanted], "an operator's `units`")
        return data[4:]

    def test_two_arrays_have_other_names(self):
        one, other = self.serial_number(), self.serial_number()
        self.holds(one != other, "two serial numbers", (one, other))
