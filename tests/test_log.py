#!/usr/bin/env python3
"""Kills a program that appends to a log on a regular file, and looks that each record that it acknowledged is there.

The program is `bench_log`, built by `rt ci` or `rt run`; BENCH_LOG names another one, and ROUNDS the rounds.
A kill leaves what was written, so this tests the program and the system's calls, and no loss of power.
"""
import os
import random
import subprocess
import tempfile
import unittest

ROOT = os.path.dirname(os.path.dirname(os.path.realpath(__file__)))
PROGRAM = os.environ.get("BENCH_LOG", os.path.join(ROOT, "crates", "bench_log", "out", "bench_log"))
ROUNDS = int(os.environ.get("ROUNDS", "200"))


def kill_after(path, lines):
    """Starts a writer, kills it once it has printed this many numbers, and returns how many it printed in all."""
    writer = subprocess.Popen([PROGRAM, "write", path], stdout=subprocess.PIPE)
    for _ in range(lines):
        writer.stdout.readline()
    writer.kill()
    rest = writer.stdout.read().split(b"\n")
    writer.stdout.close()
    writer.wait()
    # A line that was cut short was not read whole by anyone.
    return lines + len(rest) - 1


def count_in(path):
    """How many records a reader finds. It fails if one has other bytes than were written."""
    done = subprocess.run([PROGRAM, "read", path], stdout=subprocess.PIPE, check=True)
    return int(done.stdout)


class Killed(unittest.TestCase):
    def test_each_acknowledged_record_is_there(self):
        drawn = random.Random(1)
        with tempfile.TemporaryDirectory() as folder:
            for number in range(ROUNDS):
                path = os.path.join(folder, "log%d" % number)
                printed = kill_after(path, drawn.randrange(1, 40))
                found = count_in(path)
                self.assertIn(found, (printed, printed + 1), "round %d" % number)
                os.remove(path)

    def test_two_writers_are_refused(self):
        with tempfile.TemporaryDirectory() as folder:
            path = os.path.join(folder, "log")
            first = subprocess.Popen([PROGRAM, "write", path], stdout=subprocess.PIPE)
            first.stdout.readline()
            second = subprocess.run([PROGRAM, "write", path], stdout=subprocess.PIPE, stderr=subprocess.DEVNULL)
            first.kill()
            first.stdout.close()
            first.wait()
            self.assertEqual((second.returncode, second.stdout), (1, b""))


if __name__ == "__main__":
    unittest.main()
