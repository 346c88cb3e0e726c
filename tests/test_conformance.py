"""libiscsi's tests of targets: of each at least one has to run, and none to fail.

What a test says of a command that isn't there counts as passed.
"""
import re

from tests.initiators import InitiatorCase

TESTS = """
    TestUnitReady ReadCapacity10 ReadCapacity16 Inquiry Mandatory ModeSense6.AllPages ModeSense6.Residuals ReadOnly
    Read10.Simple Read10.BeyondEol Read10.ZeroBlocks Read10.DpoFua Read10.Async Read16.Simple Read16.BeyondEol
    Read16.ZeroBlocks Write10.Simple Write10.BeyondEol Write10.ZeroBlocks Write10.DpoFua Write16.Simple
    Write16.BeyondEol Write16.ZeroBlocks StartStopUnit iSCSIcmdsn iSCSITMF Unmap
    WriteSame10.Simple WriteSame10.BeyondEol WriteSame10.ZeroBlocks WriteSame10.WriteProtect WriteSame10.Unmap
    WriteSame10.UnmapUnaligned WriteSame10.UnmapUntilEnd WriteSame10.UnmapVPD WriteSame10.Check WriteSame16.Simple
    WriteSame16.BeyondEol WriteSame16.ZeroBlocks WriteSame16.WriteProtect WriteSame16.Unmap WriteSame16.UnmapUnaligned
    WriteSame16.UnmapUntilEnd WriteSame16.UnmapVPD WriteSame16.Check GetLBAStatus.Simple GetLBAStatus.BeyondEol
    ReportSupportedOpcodes.Simple ReportSupportedOpcodes.SERVACTV
""".split()


class Conformance(InitiatorCase):
    def conforms(self, name):
        server = self.target("--extents", "512", "--disks", "8", "0:0:8192", "--cache", "16")
        family = "iSCSI" if name.startswith("iSCSI") else "ALL"
        said = self.succeeds("iscsi-test-cu", "--dataloss", "--test", f"{family}.{name}", self.url(server, 0))
        summary = re.search(r"^ +tests +\d+ +(\d+) +\d+ +(\d+)", said, re.MULTILINE)
        is_passed = summary and int(summary[1]) > 0 and int(summary[2]) == 0
        self.holds(is_passed, f"{name}: at least one has run, and none failed", said[-1500:])
        self.stops(server)


for test in TESTS:
    setattr(Conformance, f"test_{test.replace('.', '_').lower()}", lambda self, name=test: self.conforms(name))
