"""The helpers of tools/hostile, and the inputs of benches: the answers that are allowed, the blocks that are made, what fails."""

import importlib.machinery
import importlib.util
import pathlib
import random
import re
import shutil
import sys

import pytest

TOOLS = pathlib.Path(__file__).resolve().parent.parent
sys.path += [str(TOOLS / "hostile"), str(TOOLS.parent / "benches")]
import hostile  # noqa: E402
import making  # noqa: E402
import measuring  # noqa: E402
import node  # noqa: E402

ROOT = TOOLS.parent
EXAMPLES = ROOT / "examples"


def answers_to(name):
    """Commands of an example, each with its answer, where one can tell by the first line how long that is."""
    commands, given = making.asking.commands_of((EXAMPLES / f"{name}.in").read_bytes()), (EXAMPLES / f"{name}.out").read_bytes()
    for command in commands:
        many = node.word_of(command) in ("CERTS", "SOURCES", "STATEMENT", "RECORDS", "SHOW", "FAILED")
        end = given.index(b"\n") + 1
        if many and given[:end] != b"NONE\n":
            end = re.search(rb"^END\n", given, re.MULTILINE).end()
        yield command, given[:end]
        given = given[end:]
    assert not given


@pytest.mark.parametrize("name", ["queries", "statements", "branches", "reversal", "expiry", "revoked", "generated_and_reversed"])
def test_the_answers_of_the_examples_are_allowed(name):
    for command, answer in answers_to(name):
        assert node.is_allowed(command, answer), (command[:80], answer)


@pytest.mark.parametrize(
    ("command", "answer"),
    [
        (b"HEAD\n", b"NOMEM\n"),
        (b"HEAD\n", b""),
        (b"MONEY\n", b"NONE\n"),
        (b"DIFF 1\n", b"NOMEM\n"),
        (b"BLOCK 0\n\n", b"REFUSED D01\n"),
        (b"BLOCK 0\n\n", b"REFUSED P01\n"),
        (b"BLOCK 0\n\n", b"ACCEPTED 0-ab\n"),
        (b"OFFER 0\n\n", b"REFUSED G51\n"),
        (b"PEND 0\n\n", b"REFUSED P01 1\n"),
        (b"REVERT 1\n", b"NOMEM\n"),
        (b"AUTO OFF\n", b"NOMEM\n"),
        (b"walk\n", b"NONE\n"),
    ],
)
def test_other_answers_are_not(command, answer):
    assert not node.is_allowed(command, answer)


def test_the_rules_are_those_of_the_chapter():
    rules = re.findall(r"^\| ([A-Z]\d+) \| ", (ROOT / "docs/protocol/rules.md").read_text(), re.MULTILINE)
    assert rules == ["X01", "P01", *node.UNDER_BLOCKS, *node.CHAIN_RULES]


def test_blocks_that_are_read_have_their_stamps_and_verdicts():
    chain = making.generated(100)
    out = (EXAMPLES / "generated_and_reversed.out").read_text().splitlines()
    accepted = [line.split()[1] for line in out if line.startswith("ACCEPTED ")]
    assert [made.stamp for made in chain] == accepted[:100]
    assert all(later.previous() == before.stamp for before, later in zip(chain, chain[1:]))
    assert all(made.verdicts for made in chain)


@pytest.mark.parametrize("how", [making.SOURCE, making.MEDIAN_TIME])
def test_a_spoilt_branch_is_a_branch(how):
    branch = making.generated(6)[1:]
    found = making.with_one_spoilt(branch, 2, how, making.blocks.key(0))
    assert found[:2] == branch[:2]
    assert all(one.stamp != other.stamp for one, other in zip(found[2:], branch[2:]))
    assert all(later.previous() == before.stamp for before, later in zip(found, found[1:]))
    assert all(making.blocks.digest(making.above_of(made.text)) == making.value_of(made.text, "InnerHash") for made in found)


def test_a_program_that_ends_is_told(tmp_path):
    program = tmp_path / "program"
    program.write_text("#!/bin/sh\nread line\necho BAD\nexit 4\n")
    program.chmod(0o755)
    with node.Node(str(program)) as asked, pytest.raises(node.Broken, match="ended with status 4 before it answered HEAD"):
        asked.ask([b"HEAD\n"])


def test_answers_are_told_apart(tmp_path):
    program = tmp_path / "program"
    program.write_text("#!/bin/sh\nwhile read line; do case $line in FENCE) echo BAD;; TWO) echo A; echo END;; *) echo BAD;; esac; done\n")
    program.chmod(0o755)
    with node.Node(str(program)) as asked:
        assert asked.ask([b"TWO\n", b"x\n", b"x\n", b"TWO\n"]) == [b"A\nEND\n", b"BAD\n", b"BAD\n", b"A\nEND\n"]
        assert asked.ask([b"TWO\n"]) == [b"A\nEND\n"]
        assert asked.end() == 0


def script(name):
    """A script of tools/hostile as a module."""
    loader = importlib.machinery.SourceFileLoader(name, str(TOOLS / "hostile" / name))
    module = importlib.util.module_from_spec(importlib.util.spec_from_loader(name, loader))
    # dataclasses look for the module by its name
    sys.modules[name] = module
    loader.exec_module(module)
    return module


@pytest.mark.parametrize("text", [b"a:\n\nb:\n\n\n", b"Version: 10\nType: Block\nNumber: 3\n\n\n"])
def test_every_change_takes_a_text_without_what_it_looks_for(text):
    tool = script("mutated_input")
    for change in [*tool.CHANGES, *tool.NEAR]:
        for seed in range(20):
            assert isinstance(change(text, [text], random.Random(seed)), bytes)


# a program that answers each line, and ends as is told where a read or a write fails
ANSWERING = """#!/usr/bin/python3 -B
import os, sys
kept = b""
while True:
    try:
        read = os.read(0, 4096)
    except OSError:
        sys.exit(%(read)d)
    if not read:
        break
    *lines, kept = (kept + read).split(b"\\n")
    given = b"".join(b"A " + line + b"\\n" if line != b"FENCE" else b"BAD\\n" for line in lines)
    try:
        while given:
            given = given[os.write(1, given):]
    except OSError:
        %(rest)s
        sys.exit(5)
"""


def failing_program(tmp_path, read=3, rest="pass"):
    program = tmp_path / "program"
    program.write_text(ANSWERING % {"read": read, "rest": rest})
    program.chmod(0o755)
    return script("failing_streams"), str(program)


@pytest.mark.skipif(not shutil.which("cc"), reason="there is no C compiler")
def test_reads_and_writes_that_fail_are_tried_each(tmp_path):
    tool, program = failing_program(tmp_path)
    # two reads of 7 bytes and 11 of one, and in each case the last one finds no more; one read of 4,096
    assert tool.try_all(tool.Failing(program, str(tmp_path)), "lines", [b"one\n", b"two 3\n"], sys.maxsize) == (11 + 3 + 2, 1 + 14)


@pytest.mark.skipif(not shutil.which("cc"), reason="there is no C compiler")
@pytest.mark.parametrize(("read", "rest", "wrong"), [(0, "pass", "status 0, and not 3"), (3, "os.write(1, b'more')", "status 99, and not 5")])
def test_a_program_that_goes_on_behind_a_failure_is_told(tmp_path, read, rest, wrong):
    tool, program = failing_program(tmp_path, read, rest)
    with pytest.raises(node.Broken, match=wrong):
        tool.try_all(tool.Failing(program, str(tmp_path)), "lines", [b"one\n", b"two 3\n"], sys.maxsize)


def test_a_block_that_is_refused_is_spoilt_in_its_place():
    tool, made = script("refused_blocks"), making.generated(3)[2]
    short, wrong = tool.Refused(made, "P01", []), tool.Refused(made, "L01", [])
    assert short.text().splitlines() == made.text.encode().splitlines()[:-1]
    assert short.answer() == f"P01 {made.text.count(chr(10))}"
    apart = [place for place, (one, other) in enumerate(zip(wrong.text(), made.text.encode())) if one != other]
    assert apart == [made.text.index("InnerHash: ") + len("InnerHash: ")]


def test_answers_are_counted_where_they_come_in_pieces(tmp_path):
    program = tmp_path / "program"
    program.write_text("#!/bin/sh\nwhile read line; do case $line in FENCE) printf B; sleep 0.1; printf 'AD\\n';; *) echo A BAD A;; esac; done\n")
    program.chmod(0o755)
    length, cost = measuring.cost_behind([str(program)], [b"one\n"], [b"two\n", b"three\n"])
    assert length == 10 and cost.kibibytes > 0


def test_hostile_inputs_are_as_long_as_the_ones_beside_them():
    rows = {row.hostile.name: row for row in hostile.all_of_them()}
    for name in ("nested_conditions", "short_conditions", "frames_of_one_line", "frames_of_line_feeds", "blocks_without_last_line", "stored_nested"):
        long, other = (sum(map(len, one.make()[1])) for one in (rows[name].hostile, rows[name].ordinary))
        assert abs(long - other) < other / 50, name
