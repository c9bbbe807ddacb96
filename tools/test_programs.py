"""Tests of docs/PROGRAMS.md: its commands make the standard input and output of the test programs that stand in crates/.

They need the reference program, which the environment names in REFERENCE.
"""
import os
import re
import subprocess
import tempfile
import unittest

from loading import text_of

REFERENCE = os.environ.get("REFERENCE")
PROGRAMS = ("call_script", "damaged_files")


@unittest.skipUnless(REFERENCE, "REFERENCE names no program")
class Programs(unittest.TestCase):
    def test_committed_files_come_from_the_reference(self):
        page = text_of("docs", "PROGRAMS.md")
        commands = "\n".join(re.findall(r"^    (.*)$", page[page.index("## call_script"):], re.M))
        with tempfile.TemporaryDirectory() as folder:
            for program in PROGRAMS:
                os.makedirs(os.path.join(folder, "crates", program))
            subprocess.run(["bash", "-euc", commands], cwd=folder, env=dict(os.environ, R=os.path.abspath(REFERENCE)), check=True)
            for program in PROGRAMS:
                for name in ("stdin", "stdout"):
                    with open(os.path.join(folder, "crates", program, name), encoding="utf-8") as file:
                        self.assertTrue(file.read() == text_of("crates", program, name), "%s/%s" % (program, name))


if __name__ == "__main__":
    unittest.main()
