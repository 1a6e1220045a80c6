#!/usr/bin/env python3
"""The tests of tools/programs.py: by which words it starts a server. A stand-in says what it was given. The last line has the counts."""
import pathlib
import shutil
import subprocess
import sys
import tempfile
import unittest

TOP = pathlib.Path(__file__).resolve().parent.parent
STAND_IN = "#!/bin/sh\nprintf '%s\\n' \"$@\"\n"


class Words(unittest.TestCase):
    """In a folder of its own, where the server is the stand-in."""

    def setUp(self):
        room = tempfile.TemporaryDirectory()
        self.addCleanup(room.cleanup)
        self.room = pathlib.Path(room.name).resolve()
        (self.room / "tools").mkdir()
        self.program = shutil.copy(TOP / "tools/programs.py", self.room / "tools")
        server = self.room / "crates/mqserve/out/mqserve"
        server.parent.mkdir(parents=True)
        server.write_text(STAND_IN)
        server.chmod(0o755)

    def given(self, *words):
        """What the server is given, after the line that shows the command."""
        done = subprocess.run([sys.executable, self.program, *words], cwd=self.room, stdin=subprocess.DEVNULL, stdout=subprocess.PIPE,
                              timeout=60, check=True)
        return done.stdout.decode().splitlines()[1:]

    def test_one_thread_or_workers(self):
        for options, wanted in (([], ["--one-thread"]), (["--workers", "4"], ["--workers", "4"]), (["--workers=4"], ["--workers=4"]),
                                (["--msg-max", "9", "--workers=4"], ["--msg-max", "9", "--workers=4"]),
                                (["--connections=4"], ["--one-thread", "--connections=4"])):
            with self.subTest(options=options):
                self.assertEqual(self.given("users", "127.0.0.1:7000", *options),
                                 ["serve", str(self.room / "users"), "127.0.0.1:7000", *wanted])

    def test_paths(self):
        for front in ("unix:", "unix-users:"):
            with self.subTest(front=front):
                self.assertEqual(self.given("users", f"{front}place")[2], f"{front}{self.room}/place")


if __name__ == "__main__":
    result = unittest.main(exit=False).result
    print(f"programs: {result.testsRun} tests, {len(result.failures) + len(result.errors)} failed")
    sys.exit(not result.wasSuccessful())
