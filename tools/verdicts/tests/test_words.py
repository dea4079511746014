"""The command line: statuses, help, progress."""
import os
import pty
import subprocess
import time
import unittest

from currency import first_block, start
from support import LONGEST_WAIT, TOOL, folder_of, run_tool


class Statuses(unittest.TestCase):
    def test_wrong_words(self) -> None:
        for words in (["--unknown"], ["--offer", "--documents"], ["--offers"], ["-x"]):
            ran = run_tool(*words, given=first_block().sealed().raw)
            self.assertEqual((ran.status, ran.commands), (2, b""))
            self.assertIn("usage: ", ran.said)

    def test_a_file_that_is_missing(self) -> None:
        """It is named, and no other one is read before."""
        with folder_of({"there": first_block().sealed().raw}) as folder:
            ran = run_tool(folder / "there", folder / "missing")
            self.assertEqual((ran.status, ran.commands), (2, b""))
            self.assertEqual(ran.said, f"verdicts: {folder / 'missing'}: no such file or folder\n")

    def test_an_empty_folder(self) -> None:
        with folder_of({}) as folder:
            self.assertEqual(run_tool(folder).status, 0)

    def test_reading_fails(self) -> None:
        """A file whose first read fails."""
        ran = run_tool("/proc/self/mem")
        self.assertEqual((ran.status, ran.commands), (2, b""))
        self.assertNotIn("Traceback", ran.said)

    def test_nobody_reads(self) -> None:
        with subprocess.Popen([TOOL], stdin=subprocess.PIPE, stdout=subprocess.PIPE, stderr=subprocess.PIPE) as tool:
            assert tool.stdin is not None and tool.stdout is not None and tool.stderr is not None
            tool.stdout.close()
            tool.stdin.write(first_block().sealed().raw)
            tool.stdin.close()
            self.assertEqual(tool.stderr.read(), b"")

    def test_help(self) -> None:
        ran = run_tool("--help")
        text = ran.commands.decode("ascii")
        self.assertEqual(ran.status, 0)
        for word in ("--offer", "--documents", "PATH", "exit status", "VERDICT"):
            self.assertIn(word, text)
        self.assertLessEqual(max(map(len, text.splitlines())), 80)


class Progress(unittest.TestCase):
    def run_long(self, stderr: int) -> None:
        """Gives three blocks, the last a while behind the answer to the first."""
        blocks = start()
        with subprocess.Popen([TOOL], stdin=subprocess.PIPE, stdout=subprocess.PIPE, stderr=stderr) as tool:
            assert tool.stdin is not None and tool.stdout is not None
            tool.stdin.write(blocks[0].raw + blocks[1].raw)
            tool.stdin.flush()
            tool.stdout.readline()
            time.sleep(1)
            tool.stdin.write(blocks[2].raw)
            tool.stdin.close()
            tool.stdout.read()
            self.assertEqual(tool.wait(LONGEST_WAIT), 0)

    def test_on_a_terminal(self) -> None:
        ours, theirs = pty.openpty()
        self.run_long(theirs)
        said = os.read(ours, 4096).decode("ascii")
        os.close(theirs)
        os.close(ours)
        self.assertRegex(said, "^\r\x1b\\[Kverdicts: [0-9]+ blocks, [0-9]+ signatures")
        self.assertTrue(said.endswith("\r\x1b[K"))

    def test_nowhere_else(self) -> None:
        reading, writing = os.pipe()
        self.run_long(writing)
        os.close(writing)
        self.assertEqual(os.read(reading, 4096), b"")
        os.close(reading)
