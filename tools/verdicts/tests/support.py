"""Runs the tool and the node for the tests."""
import os
import re
import subprocess
import tempfile
import unittest
from collections.abc import Iterable, Iterator
from contextlib import contextmanager
from dataclasses import dataclass
from pathlib import Path

TOOL = Path(__file__).resolve().parent.parent / "verdicts"
NODE = os.environ["DUBP_NODE"]
LONGEST_WAIT = 120
"""Seconds."""


@dataclass(frozen=True)
class Ran:
    """What a run of the tool gave."""

    status: int
    commands: bytes
    said: str

    @property
    def verdicts(self) -> list[str]:
        """Its VERDICT lines."""
        return re.findall(r"^VERDICT .*$", self.commands.decode("latin-1"), re.MULTILINE)

    def places(self) -> list[int]:
        """The lines of blocks and documents that are named as false or not known, in order."""
        return [int(line) for line in re.findall(r", line ([0-9]+): .*(?:is false|is not known to be true)", self.said)]


def run_tool(*words: str | Path, given: bytes = b"") -> Ran:
    ran = subprocess.run([str(TOOL), *map(str, words)], input=given, capture_output=True, timeout=LONGEST_WAIT, check=False)
    return Ran(ran.returncode, ran.stdout, ran.stderr.decode("utf-8"))


def answers(commands: bytes) -> list[str]:
    """What the node answers."""
    ran = subprocess.run([NODE, "run"], input=commands, capture_output=True, timeout=LONGEST_WAIT, check=True)
    return ran.stdout.decode("ascii").splitlines()


def block_answers(commands: bytes) -> list[str]:
    """What the node answers to blocks; each answer to a verdict has to be NOTED."""
    given = answers(commands)
    return [answer for answer in given if answer != "NOTED"]


@contextmanager
def folder_of(files: dict[str, bytes]) -> Iterator[Path]:
    """A folder with these files, while it is used."""
    with tempfile.TemporaryDirectory() as name:
        for file, content in files.items():
            Path(name, file).write_bytes(content)
        yield Path(name)


class NodeTest(unittest.TestCase):
    """A test that gives blocks to the tool, and what the tool writes to the node."""

    def answers_to(self, blocks: Iterable[bytes], *options: str) -> tuple[Ran, list[str]]:
        """Each block in a file of its own, in this order."""
        with folder_of({f"{place:04}": raw for place, raw in enumerate(blocks)}) as folder:
            ran = run_tool(*options, *sorted(folder.iterdir()))
        return ran, block_answers(ran.commands)
