"""The version, wherever it stands (tools/version.py)."""
import unittest

from tools import version

READS = ["*.md"]


class VersionTest(unittest.TestCase):
    def test_version(self):
        """A version is written wherever another stands, in each form, and nothing else is changed."""
        for text, new in (
            ("1.3.0 v1.3.0, (10300)", "12.10.9 v1.3.0, (121009)"),
            ("1_03_00 10_300u 10300u", "12_10_09 121_009u 121009u"),
            ("11.3.0 1.3.0.1 1.3.01 103000 10300_1", "11.3.0 1.3.0.1 1.3.01 103000 10300_1"),
            ("tool-1.3.0-x.tar", "tool-12.10.9-x.tar"),
        ):
            self.assertEqual(version.replaced(text, "1.3.0", "12.10.9"), new)
        old, changed = version.version_of_program(), 0
        for it in version.files():
            text = it.read_text()
            new = version.replaced(text, old, "98.76.54")
            changed += new != text
            self.assertEqual(version.replaced(new, "98.76.54", old), text)
        self.assertGreater(changed, 5)
        self.assertRegex(version.version(), r"^\d+\.\d+\.\d+$")
