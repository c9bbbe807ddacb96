"""Tests of tools/call_walks.py and tools/bench_walks.py: what they write is what stands in crates/."""
import os
import tempfile
import unittest

import bench_walks
import call_walks
from loading import text_of


class Walks(unittest.TestCase):
    def test_written_again_alike(self):
        for script in (call_walks, bench_walks):
            with tempfile.TemporaryDirectory() as folder:
                for call in script.CALLS:
                    script.write(call, folder)
                written = sorted(os.path.relpath(os.path.join(place, name), folder) for place, _, names in os.walk(folder) for name in names)
                self.assertEqual(len(written), len(script.CALLS))
                for path in written:
                    with open(os.path.join(folder, path), encoding="utf-8") as file:
                        self.assertEqual(file.read(), text_of("crates", path), "run tools/%s.py" % script.__name__)


if __name__ == "__main__":
    unittest.main()
