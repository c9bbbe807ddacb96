"""Builds the program and the library again in a folder of another name, and compares every byte with the first build (docs/ARCHIVE.md).

rt begins there with what it kept of the same crates on this machine, so that little more is done again than what makes code: each crate's archive, the program, and linking.

usage: python3 -B -m unittest discover hosts/tests     (from the root, after hosts/build)
"""
import os
import shutil
import subprocess
import unittest

ROOT = os.path.dirname(os.path.dirname(os.path.dirname(os.path.abspath(__file__))))
BUILT = ("target/bin/solumivaf", "target/staticlib/libsolumivaf.a", "target/staticlib/libsolumivaf.so")


def contents(*path):
    with open(os.path.join(*path), "rb") as file:
        return file.read()


class Archive(unittest.TestCase):
    def test_two_folders(self):
        folder = os.path.join(ROOT, "target", "again", "a folder of another name")
        self.addCleanup(shutil.rmtree, os.path.dirname(folder))
        shutil.rmtree(os.path.dirname(folder), ignore_errors=True)
        os.makedirs(folder)
        shutil.copy(os.path.join(ROOT, "crates.txt"), folder)
        for name in ("crates", "hosts"):
            shutil.copytree(os.path.join(ROOT, name), os.path.join(folder, name), ignore=shutil.ignore_patterns("target", "out"))
        for part in ("program", "library"):
            done = subprocess.run(["hosts/build", part], cwd=folder, stdout=subprocess.PIPE, stderr=subprocess.STDOUT, universal_newlines=True)
            self.assertEqual(done.returncode, 0, done.stdout[-2000:])
        for path in BUILT:
            self.assertTrue(contents(folder, path) == contents(ROOT, path), path + " differs between two builds")


if __name__ == "__main__":
    unittest.main()
