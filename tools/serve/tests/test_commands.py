"""The encoder: whatever a request has in it, a command stays one line, and a frame is as long as it says."""
from collections.abc import Callable

import pytest
import support  # noqa: F401  (puts the service on the path)
from hypothesis import given
from hypothesis import strategies as st

from service import commands
from service.commands import BadWord, Command

KEY = "5cnvo5bmR8QbtyNVnkDXWq6n5My6oNLd1o6auJApGCsv"
HASH, SIGNATURE = "0F" * 32, "A" * 86 + "=="
MAKERS: list[Callable[[str], Command]] = [
    lambda word: commands.verdict(word, HASH, SIGNATURE),
    lambda word: commands.verdict(KEY, word, SIGNATURE),
    lambda word: commands.verdict(KEY, HASH, word),
    commands.unpend,
    commands.switch,
    commands.forget,
    commands.auto,
    commands.uid,
    lambda word: commands.forge(word, 5),
    lambda word: commands.of_key("DIFF", word),
    lambda word: commands.of_key(word, KEY),
    lambda word: commands.of_condition("BALANCE", word),
    lambda word: commands.of_condition(word, f"SIG({KEY})"),
    lambda word: commands.read_changing(word, None),
    lambda word: commands.read_changing(f"VERDICT {word}", None),
]
ROOTS = [KEY, HASH, SIGNATURE, f"0-{HASH}", "alice", "ON", "DIFF", "BALANCE", f"SIG({KEY})", f"UNPEND {HASH}", f"{KEY} {HASH} {SIGNATURE}"]
MORE = ["\n", "\r", "\0", "\nHEAD", " HEAD", "\u2028", "\x85", "é", "\t"]


@given(st.sampled_from(MAKERS), st.binary(max_size=90).map(lambda raw: raw.decode("latin-1")))
def test_any_word_is_refused_or_stays_within_its_line(make: Callable[[str], Command], word: str) -> None:
    try:
        encoded = make(word).encoded()
    except BadWord:
        return
    assert encoded.count(b"\n") == 1 and encoded.endswith(b"\n")


@given(st.sampled_from(MAKERS), st.sampled_from(ROOTS), st.sampled_from(MORE), st.booleans())
def test_what_stands_before_or_behind_a_right_word_is_refused(make: Callable[[str], Command], root: str, more: str, is_before: bool) -> None:
    with pytest.raises(BadWord):
        make(more + root if is_before else root + more)


@given(st.binary(max_size=200))
def test_a_frame_is_as_long_as_its_line_says(content: bytes) -> None:
    for word, make in (("BLOCK", commands.block), ("OFFER", commands.offer), ("PEND", commands.pend)):
        assert make(content).encoded() == b"%s %d\n%s\n" % (word.encode(), len(content), content)


def test_a_frame_over_the_limit_is_refused() -> None:
    assert len(commands.block(b"x" * 1_048_576).encoded()) == len("BLOCK 1048576\n") + 1_048_576 + 1
    with pytest.raises(BadWord):
        commands.block(b"x" * 1_048_577)


@pytest.mark.parametrize("number", [-1, 2**53, 10**40])
def test_a_number_out_of_range_is_refused(number: int) -> None:
    for make in (commands.show, commands.records, commands.revert, lambda value: commands.forge(KEY, value)):
        with pytest.raises(BadWord):
            make(number)


def test_a_line_of_the_log_is_read_back() -> None:
    made = [commands.verdict(KEY, HASH, SIGNATURE), commands.block(b"a\nb"), commands.offer(b""), commands.pend(b"x"), commands.unpend(HASH)]
    made += [commands.revert(3), commands.switch(f"7-{HASH}"), commands.forget(f"7-{HASH}"), commands.auto("ON")]
    assert [commands.read_changing(command.line, command.frame) for command in made] == made
    for line, frame in (("BLOCK 4", b"abc"), ("BLOCK 3", None), ("HEAD", None), ("REVERT 07", None), ("SHOW 1", None)):
        with pytest.raises(BadWord):
            commands.read_changing(line, frame)
