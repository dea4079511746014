"""tools/paths on small lists of crates, whose paths are counted by hand."""

import pytest

# a: 1; b: a, 2; c: b and a, 1 + 2 + 1 = 4; d: c, b and a, 1 + 4 + 2 + 1 = 8; together 15
FOUR = """\
# NAME: what it stands on
d: c b a hex

c: b a # the third
a: std_like
b staticlib: a
"""


@pytest.fixture
def four(repository):
    repository.write("crates.txt", FOUR)
    return repository


def test_counts_the_paths_of_all_crates(four):
    assert four.run("paths") == (0, ["15 paths"], [])


def test_the_table_has_the_most_first(four):
    status, lines, _ = four.run("paths", "--table")
    assert status == 0
    assert [it.split() for it in lines] == [["15", "paths"], ["8", "d"], ["4", "c"], ["2", "b"], ["1", "a"]]


@pytest.mark.parametrize(("most", "status"), [(14, 1), (15, 0), (16, 0)])
def test_more_than_the_most_is_refused(four, most, status):
    assert four.run("paths", "--most", most)[0] == status


def test_an_entry_is_used_where_a_file_of_the_crate_names_it(four):
    four.write("crates/d/src/lib.rt", "use c::Thing; // hex is only told of\n")
    four.write("crates/d/specs/Deep/B.antt", "use Rattle.b.specs.Words.{Word}\n-- a, hex\n")
    four.write("crates/d/out/notes.rt", "use hex::encode;\n")
    four.write("crates/d/src/notes.txt", "hex\n")
    four.write("crates/c/proofs/Lemma.antt", "use Rattle.a.specs.Words.{Word}\nuse Rattle.abc.specs.Words.{Word}\n")
    four.write("crates/a/src/lib.rt", "use std_like::Thing;\n")
    four.write("crates/b/src/lib.rt", "use a::Thing;\n")
    status, lines, _ = four.run("paths", "--unused")
    assert status == 1
    assert lines == ["d: no file names a", "d: no file names hex", "c: no file names b"]


def test_where_each_entry_is_used_nothing_is_listed(repository):
    repository.write("crates.txt", "b: a hex\na:\n")
    repository.write("crates/b/src/lib.rt", "use a::Thing;\nuse hex::encode;\n")
    assert repository.run("paths", "--unused") == (0, [], [])


def test_the_longest_chain_has_the_most_crates(four):
    assert four.run("paths", "--longest") == (0, ["d", "c", "b", "a", "4 crates"], [])


def test_the_dearest_chain_is_found_by_its_seconds(repository):
    # top-mid-low takes 1 + 5.5 + 30 = 36.5 and has three crates, top-other 1 + 36 = 37
    repository.write("crates.txt", "top: mid other low\nmid: low\nlow:\nother:\n")
    costs = repository.write("costs", "top 1\nmid 5.5\n\nlow 30 # seconds\nother 36\n")
    status, lines, _ = repository.run("paths", "--costs", costs)
    assert status == 0
    assert [it.split() for it in lines] == [["1.0", "top"], ["36.0", "other"], ["37.0", "seconds,", "2", "crates"]]


def test_a_crate_without_costs_takes_none(repository):
    repository.write("crates.txt", "top: mid\nmid: low\nlow:\n")
    costs = repository.write("costs", "low 2\n")
    _, lines, _ = repository.run("paths", "--costs", costs)
    assert [it.split() for it in lines] == [["0.0", "top"], ["0.0", "mid"], ["2.0", "low"], ["2.0", "seconds,", "3", "crates"]]


@pytest.mark.parametrize("text", ["a: b\nb: a\n", "a:\na:\n", "a b c\n"])
def test_a_list_that_is_none_is_refused(repository, text):
    repository.write("crates.txt", text)
    status, lines, errors = repository.run("paths")
    assert (status, lines) == (2, [])
    assert "crates.txt" in errors[0]


@pytest.mark.parametrize("text", ["a\n", "a 1 2\n", "a one\n", "b 1\n", "a -1\n"])
def test_costs_that_are_none_are_refused(repository, text):
    repository.write("crates.txt", "a:\n")
    status, _, errors = repository.run("paths", "--costs", repository.write("costs", text))
    assert status == 2
    assert "costs" in errors[0]


def test_without_a_list_it_says_so(repository):
    status, lines, errors = repository.run("paths")
    assert (status, lines) == (2, [])
    assert "cannot be read" in errors[0]
