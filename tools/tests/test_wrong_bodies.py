"""tools/wrong_bodies with a stand-in for `rt` (the file rt beside this one), which says of each edit what the edit has it say."""

import json
import os
import pathlib
import signal
import subprocess
import time

import pytest

HERE = pathlib.Path(__file__).resolve().parent
REFUSED = "refused, as it must be: src/lib.rt:1:1: error: not proved"
HEAD = ["| crate | edit | came to | seconds |", "|---|---|---|---|"]
OF_ONE_LINE = "file: src/lib.rt\nold: one\nnew: two\n"


class Bodies:
    """A repository with wrong bodies, and what the stand-in was called with."""

    def __init__(self, repository, room):
        self.repository, self.log, self.copies = repository, room / "log", room / "copies"
        self.log.mkdir()
        self.copies.mkdir()
        self.environment = {**os.environ, "PATH": f"{HERE}:{os.environ['PATH']}", "RT_LOG": str(self.log), "TMPDIR": str(self.copies)}

    def crate(self, name, gate=None, more=None):
        """Writes a crate with these edits: by their names, what the stand-in says of each."""
        self.repository.write(f"crates/{name}/src/lib.rt", "one\n")
        for folder, edits in ((f"crates/{name}/must-fail", gate), (f"wrong-bodies/{name}", more)):
            for edit, said in (edits or {}).items():
                says = "".join(f"# says {line}\n" for line in said.splitlines())
                self.repository.write(f"{folder}/{edit}.edit", OF_ONE_LINE + says)

    def run(self, *words):
        return self.repository.run("wrong_bodies", *words, env=self.environment)

    def called(self, name):
        return json.loads((self.log / f"{name}.json").read_text())

    def tried(self):
        return sorted(it.stem for it in self.log.glob("*.json"))


@pytest.fixture
def bodies(repository, tmp_path):
    repository.write("crates.txt", "a:\nb:\nc:\n")
    repository.write("HANDLES", "Handles allowed: none.\n")
    return Bodies(repository, tmp_path)


def test_edits_of_both_folders_are_tried_and_all_refused(bodies):
    bodies.crate("a", gate={"late": REFUSED}, more={"early": REFUSED})
    status, lines, errors = bodies.run()
    assert (status, errors, lines[:2]) == (0, [], HEAD)
    assert lines[2].startswith("| a | early | refused | ") and lines[3:] == ["| a | late | refused |  |", "2 refused, 0 not refused, 0 not tried"]
    assert bodies.called("a")["edits"] == ["early.edit", "late.edit"]


def test_what_is_not_refused_fails_and_is_told_below_the_table(bodies):
    missed, killed = "NOT REFUSED: the crate is still proved", "NOT TRIED: its check was killed"
    bad = "BAD EDIT: it did not reach the prover:\nerror: what"
    bodies.crate("a", more={"e1": missed, "e2": bad, "e3": killed, "e4": REFUSED})
    status, lines, _ = bodies.run("a")
    assert status == 1
    assert [it.split(" | ")[2] for it in lines[2:6]] == ["NOT REFUSED", "bad edit", "not tried", "refused"]
    assert lines[6:] == [
        f"rt: must-fail a/e1.edit: {missed}",
        *f"rt: must-fail a/e2.edit: {bad}".split("\n"),
        f"rt: must-fail a/e3.edit: {killed}",
        "1 refused, 1 not refused, 2 not tried",
    ]


def test_how_an_edit_is_refused_is_told(bodies):
    limit = "refused, as it must be (only by a limit of the prover, which gave no verdict): src/lib.rt"
    name = "refused, as it must be (only because a proof file names what the edit took away): proofs/F"
    bodies.crate("a", more={"e1": limit, "e2": name})
    status, lines, _ = bodies.run("a")
    assert (status, lines[-1]) == (0, "2 refused, 0 not refused, 0 not tried")
    assert [it.split(" | ")[2] for it in lines[2:4]] == ["refused, by a limit", "refused, by a name"]


def test_an_edit_of_which_rt_says_nothing_was_not_tried(bodies):
    bodies.crate("a", more={"e1": REFUSED, "e2": ""})
    status, lines, _ = bodies.run("a")
    assert (status, lines[-1]) == (1, "1 refused, 0 not refused, 1 not tried")
    assert lines[4] == "a: rt must-fail ended with status 1, and told nothing of e2.edit; its last lines:"
    assert lines[-2] == "    rt: the last line, which is of no edit"


def test_it_tries_copies_and_leaves_the_tree_as_it_was(bodies):
    bodies.crate("a", gate={"late": REFUSED}, more={"early": REFUSED})
    bodies.crate("b", more={"early": REFUSED})
    bodies.repository.write("crates/a/out/rlib/stamp", "large")
    bodies.repository.write("crates/a/src/out/deep.rt", "one\n")
    before = {it: it.read_bytes() for it in bodies.repository.top.rglob("*") if it.is_file()}
    bodies.run("--jobs", 2)
    after = {it: it.read_bytes() for it in bodies.repository.top.rglob("*") if it.is_file() and it.parent.name != "tools"}
    assert after == before
    assert bodies.called("a")["folder"] != bodies.called("b")["folder"]
    assert bodies.called("a")["folder"].startswith(str(bodies.copies))
    wanted = {"crates.txt", "HANDLES", "crates/a/src/lib.rt", "crates/a/src/out/deep.rt", "crates/b/src/lib.rt"}
    files = {it for it in bodies.called("a")["files"] if not it.startswith("wrong-bodies/b/")}
    assert files == wanted | {f"crates/a/must-fail/{it}.edit" for it in ("early", "late")}
    assert list(bodies.copies.iterdir()) == []


def test_several_crates_are_tried_at_once(bodies):
    for name in "abc":
        bodies.crate(name, more={"early": REFUSED})
    (bodies.log / "wait").write_text("2")
    status, lines, _ = bodies.run("--jobs", 2, "a", "b")
    assert (status, lines[-1], bodies.tried()) == (0, "2 refused, 0 not refused, 0 not tried", ["a", "b"])
    assert bodies.called("a")["met"] and bodies.called("b")["met"]
    assert bodies.called("a")["jobs"] == "1"


@pytest.mark.parametrize(("jobs", "names", "each"), [(1, "abc", "1"), (4, "a", "4"), (5, "ab", "2")])
def test_no_more_checks_are_made_than_were_asked_for(bodies, jobs, names, each):
    for name in names:
        bodies.crate(name, more={"early": REFUSED})
    assert bodies.run("--jobs", jobs)[0] == 0
    assert bodies.tried() == list(names)
    assert {bodies.called(it)["jobs"] for it in names} == {each}
    assert jobs > 1 or all(bodies.called(it)["beside"] == 1 for it in names)


def git(bodies, *words):
    named = ["-c", "user.name=somebody", "-c", "user.email=somebody@localhost"]
    subprocess.run(["git", *named, *words], cwd=bodies.repository.top, check=True, stdout=subprocess.DEVNULL, stderr=subprocess.DEVNULL)


def test_those_that_changed_since_a_commit_are_tried(bodies):
    for name in "abcd":
        bodies.crate(name, gate={"late": REFUSED}, more={"early": REFUSED})
    git(bodies, "init", "-q")
    git(bodies, "add", ".")
    git(bodies, "commit", "-q", "-m", "the crates")
    assert bodies.run("--changed", "HEAD")[::2] == (0, [])
    assert bodies.tried() == []
    bodies.repository.write("crates/a/specs/Words.antt", "three\n")
    git(bodies, "add", ".")
    git(bodies, "commit", "-q", "-m", "a changed")
    bodies.repository.write("crates/b/src/lib.rt", "one\nthree\n")
    bodies.repository.write("crates/c/README.md", "three\n")
    bodies.repository.write("crates/d/must-fail/late.edit", OF_ONE_LINE)
    status, lines, _ = bodies.run("--changed", "HEAD~1")
    assert (status, lines[-1], bodies.tried()) == (0, "4 refused, 0 not refused, 0 not tried", ["a", "b"])
    assert bodies.run("--changed", "HEAD", "a")[1] == [*HEAD, "0 refused, 0 not refused, 0 not tried"]
    assert bodies.run("--changed", "nothing")[0] == 2


def test_wrong_arguments_try_nothing(bodies):
    bodies.crate("a", gate={"late": REFUSED}, more={"early": REFUSED})
    bodies.crate("b", gate={"late": REFUSED}, more={"late": REFUSED})
    bodies.crate("c")
    wrong = [(["c"], "no wrong bodies of c"), (["a", "--jobs", 0], "--jobs"), (["b"], "late.edit in both folders"), (["--what"], "--what")]
    for words, told in wrong:
        status, lines, errors = bodies.run(*words)
        assert (status, lines) == (2, [])
        assert told in errors[-1]
    assert bodies.tried() == []


def test_without_rt_nothing_is_tried(bodies):
    bodies.crate("a", more={"early": REFUSED})
    bodies.environment["PATH"] = str(bodies.copies)
    status, _, errors = bodies.run()
    assert (status, errors) == (2, ["tools/wrong_bodies: there is no rt on PATH"])


def test_what_cannot_be_applied_is_found_without_the_prover(bodies):
    bodies.crate("a", gate={"late": ""}, more={"early": ""})
    assert bodies.run("--check") == (0, [], [])
    for name, text in (("gone", "file: src/no.rt\nold: one\nnew: two\n"), ("same", "file: src/lib.rt\nold: one\nnew: one\n"), ("none", "old:\n")):
        bodies.repository.write(f"wrong-bodies/a/{name}.edit", text)
    bodies.repository.write("crates/a/src/lib.rt", "one one\n")
    status, lines, _ = bodies.run("--check")
    assert (status, bodies.tried()) == (1, [])
    wanted = [f"wrong-bodies/a/{it}.edit" for it in ("early", "gone", "none", "same")]
    assert sorted(it.split(":")[0] for it in lines) == ["crates/a/must-fail/late.edit", *wanted]
    assert "crates/a/must-fail/late.edit: its old text stands 2 times, not once" in lines


def test_where_it_is_ended_nothing_stays(bodies):
    for name in "abc":
        bodies.crate(name, more={"early": REFUSED})
    (bodies.log / "stay").touch()
    started = bodies.repository.start("wrong_bodies", "--jobs", 2, env=bodies.environment)
    for _ in range(1200):
        if len(bodies.tried()) == 2:
            break
        time.sleep(0.05)
    assert bodies.tried() == ["a", "b"]
    started.send_signal(signal.SIGTERM)
    assert started.communicate(timeout=60) and started.returncode == 128 + signal.SIGTERM
    assert list(bodies.copies.iterdir()) == []
    assert not any(pathlib.Path(f"/proc/{bodies.called(it)['pid']}").exists() for it in "ab")
    assert bodies.tried() == ["a", "b"]
