"""The dashboard for Grafana shows metrics that a served array has."""
import json
import re

from tests.harness import text_of
from tests.test_store import Stored


class Dashboard(Stored):
    def test_metrics(self):
        """Those of an array with a store, which are all."""
        self.creates()
        server = self.takes_up("0:0:8", doors=("operator", "http"))
        served = set(re.findall(r"^(autoraid_\w+)", server.get("/metrics")[2], re.MULTILINE))
        shown = json.loads(text_of("examples", "grafana.json"))
        targets = [target["expr"] for panel in shown["panels"] for target in panel["targets"]]
        self.wants(set(re.findall(r"autoraid_\w+", json.dumps(shown))) - served, set(), "metrics that aren't served")
        self.holds(len(targets) > 9, "it shows more than nine of them", targets)
        self.stops(server)
