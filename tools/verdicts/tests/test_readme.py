"""The session in the README is that of a run, and the example is what its maker writes."""
import re
import subprocess
import unittest

from currency import whole
from support import LONGEST_WAIT, NODE, TOOL

TOP = TOOL.parent.parent.parent
PROGRAM = "(cd crates/dubp_node && rt run -- run)"


def session() -> tuple[str, str, str]:
    """The command that installs, the one that runs, and the answers."""
    text = TOOL.with_name("README.md").read_text()
    section = text[text.index("## From raw blocks to answers") : text.index("## What is read")]
    install, run, answers = (re.sub("^    ", "", part, flags=re.MULTILINE) for part in re.findall(r"(?:^    .*\n)+", section, re.MULTILINE))
    return install, run, answers


class Session(unittest.TestCase):
    def test_it_installs_what_is_used(self) -> None:
        self.assertEqual(session()[0], "apt-get update && apt-get install -y python3-nacl python3-duniterpy\n")

    def test_the_answers_are_those_of_the_run(self) -> None:
        _, run, answers = session()
        self.assertEqual(run.count(PROGRAM), 1)
        command = run.replace(PROGRAM, f"'{NODE}' run")
        ran = subprocess.run(["bash", "-o", "pipefail", "-c", command], cwd=TOP, capture_output=True, timeout=LONGEST_WAIT, check=True)
        self.assertEqual((ran.stdout.decode("ascii"), ran.stderr), (answers, b""))

    def test_the_example_is_what_its_maker_writes(self) -> None:
        files = {path.name: path.read_bytes() for path in TOOL.with_name("example").iterdir()}
        self.assertEqual(files, {f"block-{block.number}": block.raw for block in whole()})
