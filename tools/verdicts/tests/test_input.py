"""Where blocks come from, and what is no block: everything is handed on as it came."""
import os
import random
import subprocess
import unittest
from dataclasses import replace

from currency import PEOPLE, Block, first_block, start, whole
from support import NODE, TOOL, NodeTest, answers, block_answers, folder_of, run_tool

LONGEST_BLOCK = 1_048_576
MOST_MEMORY = 40_000
"""Kibibytes."""


def frame(raw: bytes, command: str = "BLOCK") -> bytes:
    return f"{command} {len(raw)}\n".encode("ascii") + raw + b"\n"


class Order(NodeTest):
    def test_a_folder_in_order_of_its_numbers(self) -> None:
        """Neither the order of the names nor that of the numbers' texts."""
        before = start()[2]
        blocks = {number: Block(number, PEOPLE[0], 1000, 1000, 1, 0, 1, before).sealed().raw for number in (2, 9, 10, 11, 100)}
        names = dict(zip(blocks, ("e", "d", "c", "b", "a")))
        with folder_of({names[number]: raw for number, raw in blocks.items()}) as folder:
            commands = run_tool(folder).commands
        self.assertEqual(sorted(blocks.values(), key=commands.index), list(blocks.values()))

    def test_a_folder_is_its_blocks(self) -> None:
        chain = whole()
        names = ("block-10", "block-9", "block-1", "block-02", "a")
        files = {name: block.raw for name, block in zip(names, chain)}
        with folder_of({**files, ".hidden": b"not read"}) as folder:
            (folder / "below").mkdir()
            ran = run_tool(folder)
        self.assertEqual(block_answers(ran.commands), [f"ACCEPTED {block.stamp}" for block in chain])
        self.assertEqual(ran.status, 0)

    def test_files_without_a_number_come_last(self) -> None:
        chain = start()
        files = {"a": b"no block\n", "b": b"", "c": chain[1].raw, "d": chain[0].raw, "e": b"Version: 10\nType: Block\nCurrency: cc\nNumber: \n"}
        with folder_of(files) as folder:
            given = block_answers(run_tool(folder).commands)
        self.assertEqual(given, [*(f"ACCEPTED {block.stamp}" for block in chain[:2]), "REFUSED P01 1", "REFUSED P01 1", "REFUSED P01 4"])

    def test_equal_numbers_come_by_name(self) -> None:
        first, other = first_block().sealed(), replace(first_block(), time=1001, median_time=1001).sealed()
        with folder_of({"a": first.raw, "b": other.raw, "c": first.raw}) as folder:
            ran = run_tool(folder)
        self.assertEqual(block_answers(ran.commands), [f"ACCEPTED {first.stamp}", "REFUSED G51", "REFUSED G51"])

    def test_standard_input_and_files(self) -> None:
        chain = whole()
        with folder_of({"first": chain[0].raw + chain[1].raw, "last": chain[4].raw}) as folder:
            ran = run_tool(folder / "first", "-", folder / "last", given=chain[2].raw + chain[3].raw)
        self.assertEqual(block_answers(ran.commands), [f"ACCEPTED {block.stamp}" for block in chain])

    def test_a_block_is_written_before_the_next_has_come_whole(self) -> None:
        chain = start()
        with subprocess.Popen([TOOL], stdin=subprocess.PIPE, stdout=subprocess.PIPE, stderr=subprocess.DEVNULL) as tool:
            assert tool.stdin is not None and tool.stdout is not None
            tool.stdin.write(chain[0].raw + chain[1].raw[:30])
            tool.stdin.flush()
            wanted = frame(chain[0].raw)
            lines = [tool.stdout.readline() for _ in range(13 + wanted.count(b"\n"))]
            self.assertTrue(b"".join(lines).endswith(wanted))
            tool.stdin.close()
            self.assertEqual(tool.stdout.read(), frame(chain[1].raw[:30]))


class Memory(unittest.TestCase):
    def test_the_input_is_not_held(self) -> None:
        """Many blocks, and one text of many times the longest block."""
        block = whole()[1].raw
        for size, piece in ((3_000, block), (64, b"x" * LONGEST_BLOCK)):
            with subprocess.Popen([TOOL], stdin=subprocess.PIPE, stdout=subprocess.DEVNULL, stderr=subprocess.DEVNULL) as tool:
                assert tool.stdin is not None
                for _ in range(size):
                    tool.stdin.write(piece)
                tool.stdin.close()
                _, tool.returncode, used = os.wait4(tool.pid, 0)
            self.assertEqual(tool.returncode, 0)
            self.assertLess(used.ru_maxrss, MOST_MEMORY)


class NoBlocks(NodeTest):
    def check(self, wanted: dict[bytes, str]) -> None:
        """Each of these texts is handed on as it came, without verdicts, and is answered so."""
        with folder_of({f"{place:04}": raw for place, raw in enumerate(wanted)}) as folder:
            ran = run_tool(*sorted(folder.iterdir()))
        self.assertEqual(ran.commands, b"".join(map(frame, wanted)))
        self.assertEqual(ran.status, 0)
        self.assertEqual(ran.said.count("it is no block"), len(wanted))
        self.assertEqual(answers(ran.commands), list(wanted.values()))

    def test_nothing(self) -> None:
        self.check({b"": "REFUSED P01 1"})
        ran = run_tool()
        self.assertEqual((ran.commands, ran.said, ran.status), (b"", "", 0))

    def test_line_ends_of_other_systems(self) -> None:
        raw = first_block().sealed().raw
        self.check({raw.replace(b"\n", b"\r\n"): "REFUSED P01 1", raw.replace(b"\n", b"\r"): "REFUSED P01 1"})

    def test_a_cut_block(self) -> None:
        """The answer names the line in which it ends."""
        raw = whole()[3].raw
        self.check({raw[:size]: f"REFUSED P01 {raw[:size].count(10) + 1}" for size in range(1, len(raw), 7)})

    def test_lines_that_are_missing(self) -> None:
        lines = whole()[3].raw.splitlines(keepends=True)
        changed = [b"".join(lines[:place] + lines[place + 1 :]) for place in range(len(lines))]
        ran, given = self.answers_to(changed)
        self.assertEqual({answer[:12] for answer in given}, {"REFUSED P01 "})
        self.assertEqual([raw for raw in changed if frame(raw) not in ran.commands], [])

    def test_long_lines(self) -> None:
        raw = first_block().sealed().raw
        self.check(
            {
                b"x" * LONGEST_BLOCK: "REFUSED P01 1",
                b"x" * (LONGEST_BLOCK + 1): "REFUSED X01",
                b"x" * (8 * LONGEST_BLOCK): "REFUSED X01",
                raw.replace(b"Number: 0", b"Number: " + b"9" * 5000): "REFUSED P01 4",
                raw.replace(b":0:", b":" + b"9" * 5000 + b":"): f"REFUSED P01 {raw[: raw.index(b':0:')].count(10) + 1}",
            }
        )

    def test_names_and_conditions_that_do_not_end(self) -> None:
        texts = [first_block().sealed().raw.replace(b":user0", b":" + b"(" * 100_000), whole()[3].raw.replace(b"SIG(", b"(" * 50_000)]
        ran, given = self.answers_to(texts)
        self.assertEqual({answer[:12] for answer in given}, {"REFUSED P01 "})
        self.assertEqual([raw for raw in texts if frame(raw) not in ran.commands], [])

    def test_arbitrary_bytes(self) -> None:
        chance = random.Random(7)
        texts = [chance.randbytes(chance.randrange(1, 3000)) for _ in range(40)]
        self.check({raw: "REFUSED P01 1" for raw in texts})

    def test_a_byte_changed(self) -> None:
        """Whatever the byte is, the frame has it, and the node answers for it."""
        chance, raw = random.Random(11), whole()[3].raw
        files = {}
        for number in range(300):
            place = chance.randrange(len(raw))
            files[f"{number:03}"] = raw[:place] + chance.randbytes(1) + raw[place + 1 :]
        with folder_of(files) as folder:
            ran = run_tool(*sorted(folder.iterdir()))
        self.assertEqual([name for name, content in files.items() if frame(content) not in ran.commands], [])
        self.assertEqual(ran.commands.count(b"BLOCK "), len(files))
        self.assertEqual(set(answers(ran.commands)) & {"BAD"}, set())

    def test_what_stands_before_and_between(self) -> None:
        chain = start()
        given = b"before\n" + chain[0].raw + b"\n" + chain[0].raw + chain[1].raw
        commands = run_tool(given=given).commands
        after = chain[0].text.count("\n") + 1
        self.assertEqual(block_answers(commands), ["REFUSED P01 1", f"ACCEPTED {chain[0].stamp}", f"ACCEPTED {chain[1].stamp}"])
        commands = run_tool(given=chain[0].raw + b"\n" + chain[0].raw).commands
        self.assertEqual(block_answers(commands), [f"REFUSED P01 {after}", f"ACCEPTED {chain[0].stamp}"])


class Offers(unittest.TestCase):
    def test_frames_are_offers(self) -> None:
        given = b"".join(block.raw for block in whole())
        offered, submitted = run_tool("--offer", given=given), run_tool(given=given)
        wanted = submitted.commands
        for block in whole():
            wanted = wanted.replace(frame(block.raw), frame(block.raw, "OFFER"))
        self.assertEqual((offered.commands, offered.status), (wanted, 0))

    def test_a_branch_is_stored_and_switched_to(self) -> None:
        chain = whole()
        if answers(f"FORGET {chain[0].stamp}\n".encode("ascii")) == ["BAD"]:
            self.skipTest(f"{NODE} has no branches")
        commands = run_tool("--offer", given=b"".join(block.raw for block in chain)).commands
        given = block_answers(commands + f"SWITCH {chain[4].stamp}\n".encode("ascii"))
        self.assertEqual(given, [*(f"STORED {block.stamp}" for block in chain), f"SWITCHED {chain[4].stamp}"])
