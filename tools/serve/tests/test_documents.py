"""What docs/WALLETS.md says is what the program and the service do."""
import re
import subprocess

from support import PROGRAM, TOOL

from service.refusals import _CODE_OF_RULE
from service.routes import READS, openapi

REPOSITORY = TOOL.parents[1]
TEXT = (REPOSITORY / "docs" / "WALLETS.md").read_text(encoding="utf-8")


def _frames() -> list[tuple[str, bytes, bytes]]:
    """Each frame of the page: verdict, the line, and the bytes that stand indented behind it."""
    found = []
    for part in TEXT.split("    VERDICT ")[1:]:
        lines = [line.removeprefix("    ") for line in part.split("\n")]
        end = next((place for place, line in enumerate(lines[2:], 2) if line == ""), len(lines))
        found.append((f"VERDICT {lines[0]}\n{lines[1]}\n", "".join(f"{line}\n" for line in lines[2:end]).encode(), lines[1].split()[1].encode()))
    return found


def _ask(text: bytes) -> list[str]:
    return subprocess.run([str(PROGRAM), "run"], input=text, stdout=subprocess.PIPE, check=True).stdout.decode().split("\n")[:-1]


def test_the_frames_are_what_they_say(has_forge: bool) -> None:
    (block_line, block, block_length), (pend_line, pending, pend_length) = _frames()
    assert len(block) == int(block_length) and len(pending) == int(pend_length)
    example = [str(TOOL.parent / "verdicts" / "verdicts"), str(TOOL.parent / "verdicts" / "example" / "block-0")]
    first = subprocess.run(example, stdout=subprocess.PIPE, check=True).stdout
    answers = _ask(first + block_line.encode() + block + b"\n")
    assert answers[-2:] == ["NOTED", re.findall(r"`(ACCEPTED 1-[0-9A-F]{64})`", TEXT)[0]]
    if has_forge:
        answers = _ask(pend_line.encode() + pending + b"\n")
        assert answers == ["NOTED", re.findall(r"`(PENDING [0-9A-F]{64})`", TEXT)[0]]


def test_the_table_of_refusals_is_that_of_the_service() -> None:
    told = {}
    for ucode, rules in re.findall(r"^\| (\d{4}) \| \d{3} \| ((?:`\w+` ?)+)\|", TEXT, re.MULTILINE):
        told.update(dict.fromkeys(re.findall(r"`(\w+)`", rules), int(ucode)))
    assert told == _CODE_OF_RULE


def test_each_path_is_named() -> None:
    described = openapi()["paths"]
    for read in READS:
        stem = read.path.split("/{")[0]
        assert stem in TEXT and read.path in described, read.path
