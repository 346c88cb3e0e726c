"""The documents, a case each: widths, links, and the output of each command that they show."""
import re

from tests.harness import Case
from tests.texts import documents


class Documents(Case):
    def is_in_order(self, path):
        for flaw in documents.looks_of(path):
            with self.subTest(path):
                self.wants(flaw, None, path)


for document in documents.paths():
    name = re.sub(r"\W+", "_", document.removesuffix(".md")).lower()
    setattr(Documents, f"test_{name}", lambda self, path=document: self.is_in_order(path))
