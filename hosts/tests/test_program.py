"""Tests of what the program says where it cannot read or write: target/bin/solumivaf, which hosts/build makes.

usage: python3 -B -m unittest discover hosts/tests     (from the root)
"""
import os
import resource
import signal
import subprocess
import tempfile
import unittest

ROOT = os.path.dirname(os.path.dirname(os.path.dirname(os.path.abspath(__file__))))
PROGRAM = os.path.join(ROOT, "target", "bin", "solumivaf")
SYSTEM = os.path.join(ROOT, "examples", "reel.system")
RESULT = os.path.join(ROOT, "examples", "reel.result")

# Reads and writes of at most STEP bytes, of which every second one is interrupted first. CALLS of each get through, and then LAST is the error.
HINDERED = r"""
#define _GNU_SOURCE
#include <dlfcn.h>
#include <errno.h>
#include <stdlib.h>
#include <unistd.h>
static long value(const char *name, long without) { return getenv(name) == NULL ? without : atol(getenv(name)); }
static int hindered(long *calls) {
    ++*calls;
    errno = EINTR;
    if (*calls % 2 == 1) return 1;
    errno = (int)value("LAST", EIO);
    return *calls / 2 > value("CALLS", 1000000);
}
static size_t step(size_t count) { return count < (size_t)value("STEP", 1) ? count : (size_t)value("STEP", 1); }
ssize_t read(int fd, void *buffer, size_t count) {
    static long calls;
    ssize_t (*plain)(int, void *, size_t) = (ssize_t (*)(int, void *, size_t))dlsym(RTLD_NEXT, "read");
    if (getenv("READS") != NULL && fd == 0) return hindered(&calls) ? -1 : plain(fd, buffer, step(count));
    return plain(fd, buffer, count);
}
ssize_t write(int fd, const void *buffer, size_t count) {
    static long calls;
    ssize_t (*plain)(int, const void *, size_t) = (ssize_t (*)(int, const void *, size_t))dlsym(RTLD_NEXT, "write");
    if (getenv("WRITES") != NULL && fd == 1) return hindered(&calls) ? -1 : plain(fd, buffer, step(count));
    return plain(fd, buffer, count);
}
"""


def contents(path):
    with open(path, "rb") as file:
        return file.read()


class Program(unittest.TestCase):
    def setUp(self):
        folder = tempfile.TemporaryDirectory()
        self.addCleanup(folder.cleanup)
        self.folder = folder.name

    def run_it(self, **more):
        """What the program writes and says, with status 0."""
        if "stdin" not in more:
            file = open(SYSTEM, "rb")
            self.addCleanup(file.close)
            more["stdin"] = file
        more.setdefault("stdout", subprocess.PIPE)
        done = subprocess.run([PROGRAM], stderr=subprocess.PIPE, **more)
        self.assertEqual(done.returncode, 0)
        return done.stdout, done.stderr.decode()

    def test_nothing_lost(self):
        self.assertEqual(self.run_it(), (contents(RESULT), ""))

    def test_output(self):
        with open("/dev/full", "wb") as full:
            self.assertEqual(self.run_it(stdout=full), (None, "solumivaf: the output is incomplete: No space left on device\n"))
        closed = self.run_it(stdout=None, preexec_fn=lambda: os.close(1))
        self.assertEqual(closed, (None, "solumivaf: the output is incomplete: Bad file descriptor\n"))

    def test_file_size(self):
        def limited():
            signal.signal(signal.SIGXFSZ, signal.SIG_IGN)
            resource.setrlimit(resource.RLIMIT_FSIZE, (100, 100))

        path = os.path.join(self.folder, "output")
        with open(path, "wb") as file:
            said = self.run_it(stdout=file, preexec_fn=limited)
        self.assertEqual(said, (None, "solumivaf: the output is incomplete: File too large\n"))
        self.assertEqual(contents(path), contents(RESULT)[:100])

    def test_input(self):
        closed = self.run_it(stdin=None, preexec_fn=lambda: os.close(0))
        self.assertEqual(closed, (b"", "solumivaf: standard input could not be read: Bad file descriptor\n"))
        folder = os.open(self.folder, os.O_RDONLY)
        self.addCleanup(os.close, folder)
        self.assertEqual(self.run_it(stdin=folder), (b"", "solumivaf: standard input could not be read: Is a directory\n"))

    def test_empty_input(self):
        self.assertEqual(self.run_it(stdin=subprocess.DEVNULL), (b"050E0001\n", ""))

    def hindered(self, **settings):
        source, library = os.path.join(self.folder, "hindered.c"), os.path.join(self.folder, "hindered.so")
        with open(source, "w", encoding="utf-8") as file:
            file.write(HINDERED)
        subprocess.run(["gcc", "-O1", "-shared", "-fPIC", source, "-o", library, "-ldl"], check=True)
        return self.run_it(env=dict(os.environ, LD_PRELOAD=library, **settings))

    def test_interrupted(self):
        for step in ("1", "5", "100", "100000"):
            self.assertEqual(self.hindered(READS="", WRITES="", STEP=step), (contents(RESULT), ""), step)

    def test_broken_off(self):
        for calls in (0, 1, 7, 8, 1000):
            lost = self.hindered(READS="", STEP="1", CALLS=str(calls))
            self.assertEqual(lost, (b"", "solumivaf: standard input could not be read: Input/output error\n"), calls)
            lost = self.hindered(WRITES="", STEP="1", CALLS=str(calls))
            self.assertEqual(lost, (contents(RESULT)[:calls], "solumivaf: the output is incomplete: Input/output error\n"), calls)


if __name__ == "__main__":
    unittest.main()
