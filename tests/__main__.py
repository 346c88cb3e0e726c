"""Runs files of cases side by side on the machine's processors, with a line for each, and 'N passed, M failed' last.

    python3 -m tests              all files, as the gate does
    python3 -m tests stop ..      test_stop.py ..

N counts comparisons that held, M cases that failed. A file that dies fails; so does a case that is left out.
"""
import concurrent.futures
import glob
import os
import re
import signal
import subprocess
import sys
import time
import unittest

from tests import harness

# The slowest begin first.
SLOWEST = (
    "checkpoints initiators drill databases memory refused_allocations http_clients conformance serving largest stop"
).split()
# Seconds that a file may take.
LONGEST = 900


def names():
    """The files of cases, the slowest first."""
    found = [os.path.basename(path)[5:-3] for path in glob.glob(os.path.join(harness.ROOT, "tests", "test_*.py"))]
    return sorted(found, key=lambda name: (SLOWEST.index(name) if name in SLOWEST else len(SLOWEST), name))


def one(name):
    """Runs one file in this process, and prints how many comparisons held and how many cases failed."""
    suite = unittest.defaultTestLoader.loadTestsFromName(f"tests.test_{name}")
    result = unittest.TextTestRunner(stream=sys.stdout, verbosity=0).run(suite)
    failed = len(result.failures) + len(result.errors) + len(result.skipped) + len(result.unexpectedSuccesses)
    print(f"{max(harness.Case.held, result.testsRun - failed)} passed, {failed + (not result.testsRun)} failed")


def beside(name):
    """Runs one file in a process of its own: how it ended, what it said, and how long it took."""
    begun = time.monotonic()
    words = [sys.executable, "-B", "-m", "tests", "--one", name]
    how = {"stdin": subprocess.DEVNULL, "stdout": subprocess.PIPE, "stderr": subprocess.STDOUT}
    with subprocess.Popen(words, cwd=harness.ROOT, text=True, errors="replace", **how) as running:
        try:
            said = running.communicate(timeout=LONGEST)[0]
        except subprocess.TimeoutExpired:
            # (at this signal it ends what it has started)
            running.send_signal(signal.SIGTERM)
            said = running.communicate()[0] + f"it took more than {LONGEST} s\n"
    counts = re.search(r"^(\d+) passed, (\d+) failed\n\Z", said, re.MULTILINE)
    passed, failed = (int(counts[1]), int(counts[2])) if counts and running.returncode == 0 else (0, 1)
    # (only the sum of all files is to be read as one)
    return name, passed, failed, said[: counts.start() if counts else None], time.monotonic() - begun


def main(wanted):
    if wanted[:1] == ["--one"]:
        return one(wanted[1])
    if not set(wanted) <= set(names()):
        sys.exit(f"usage: python3 -m tests [NAME ..], of {' '.join(names())}")
    passed = failed = 0
    with concurrent.futures.ThreadPoolExecutor(os.cpu_count()) as pool:
        for done in concurrent.futures.as_completed([pool.submit(beside, name) for name in wanted or names()]):
            name, held, faults, said, seconds = done.result()
            passed, failed = passed + held, failed + faults
            if faults:
                print(said)
            print(f"test_{name}: {held} held, {faults} failed, {seconds:.1f} s", flush=True)
    print(f"{passed} passed, {failed} failed")
    return failed > 0


if __name__ == "__main__":
    sys.exit(main(sys.argv[1:]))
