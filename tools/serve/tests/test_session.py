"""A session by silkaj itself, unchanged, and the demonstration as the README shows it."""
import json
import os
import re
import shutil
import subprocess
from collections.abc import Callable
from pathlib import Path
from typing import Any

import pytest
from support import PROGRAM, TOOL, Server

from service.demo import new_wallet

SILKAJ = shutil.which("silkaj", path="/usr/bin")
needs_silkaj = pytest.mark.skipif(SILKAJ is None, reason="silkaj is not installed")
Run = Callable[..., str]


@pytest.fixture
def silkaj(forging: Server, tmp_path: Path) -> Run:
    """Runs silkaj, with the key of somebody where one is named, and gives what it prints."""
    def run(*words: str, by: Path | None = None, status: int = 0, answers: str = "") -> str:
        auth = [] if by is None else ["--auth-file", "--file", str(by)]
        environment = {**os.environ, "LC_ALL": "C.UTF-8", "COLUMNS": "220", "TZ": "UTC", "PYTHONDONTWRITEBYTECODE": "1"}
        command = [str(SILKAJ), "-ep", f"127.0.0.1:{forging.port}", *auth, *words]
        pipes: dict[str, Any] = {"stdout": subprocess.PIPE, "stderr": subprocess.STDOUT, "text": True, "timeout": 120}
        done = subprocess.run(command, input=answers, env=environment, cwd=tmp_path, check=False, **pipes)
        assert done.returncode == status and "Traceback" not in done.stdout, done.stdout
        return done.stdout

    return run


def _total(said: str) -> int:
    """The units of a balance that silkaj prints."""
    found = re.search(r"Total balance.*│ +([0-9.]+) ", said)
    assert found, said
    return round(float(found[1]) * 100)


@needs_silkaj
def test_silkaj_reads_and_pays(silkaj: Run, forging: Server, currency: Path) -> None:
    keys = {each["uid"]: each["pubkey"] for each in forging.get("/wot/members").json["results"]}
    alice, bob = keys["alice"], keys["bob"]
    assert re.search(r"Current block number: 26 .*Number of members: 3 ", silkaj("blockchain", "info"), re.DOTALL)
    assert "no blocks with a wrong signature" in silkaj("blockchain", "verify")
    assert f"→ {alice}" in silkaj("wot", "lookup", "alice")
    # dividends of 1,000 units less 300: silkaj shows hundredths
    units = 1000 * len(forging.get("/blockchain/with/ud").json["result"]["blocks"]) - 300
    assert _total(silkaj("money", "balance", alice)) == units
    silkaj("money", "transfer", "-a", "12.34", "-r", bob, "-c", "by silkaj", "--yes", by=currency / "alice.key")
    assert re.search(r"Pending transaction .*-12.34", silkaj("money", "balance", alice))
    forging.forge()
    dividend = forging.get("/blockchain/current").json["dividend"] or 0
    assert _total(silkaj("money", "balance", alice)) == units - 1234 + dividend
    assert re.search(r"alice - .* 12[.]340? .*by silkaj", silkaj("money", "history", "-u", bob))
    said = silkaj("money", "transfer", "-a", "99999", "-r", bob, "--yes", by=currency / "alice.key", status=1)
    assert "have enough money" in said


@needs_silkaj
def test_silkaj_shows_why_it_was_refused(silkaj: Run, forging: Server, currency: Path) -> None:
    carol = forging.get("/wot/lookup/carol").json["results"][0]["pubkey"]
    assert "revoked: True" in silkaj("wot", "status", "carol")
    said = silkaj("wot", "membership", by=currency / "carol.key", status=1, answers="y\n")
    assert "HTTP Error 400: 1002 G77: " in said
    assert "Current identity is not member" in silkaj("wot", "certify", carol, by=currency / "carol.key", status=1)


def test_the_demonstration_tells_its_story(demo: Path) -> None:
    said = (demo.parent / "said").read_text()
    told = ("alice, bob and carol certify one another", "the first dividend", "alice pays bob 300", "dora joins", "carol revokes", "lose to three")
    for sentence in told:
        assert sentence in said
    assert (demo / "alice.key").stat().st_mode & 0o077 == 0
    assert [line.split()[0] for line in (demo / "keys.txt").read_text().splitlines()] == ["alice", "bob", "dora"]


def test_the_demonstration_is_not_written_over(demo: Path) -> None:
    command = [str(TOOL.parent / "demo"), str(demo), "--program", str(PROGRAM)]
    done = subprocess.run(command, stderr=subprocess.PIPE, text=True, check=False)
    assert done.returncode == 1 and "is there already" in done.stderr


def test_a_program_without_forging_makes_no_demonstration(tmp_path: Path) -> None:
    filtered = tmp_path / "filtered"
    filtered.write_text(f"#!/bin/bash\nstdbuf -oL sed -E 's/^(FORGE)( .*)?$/HELLO/' | {PROGRAM} run\n")
    filtered.chmod(0o755)
    command = [str(TOOL.parent / "demo"), str(tmp_path / "currency"), "--program", str(filtered)]
    done = subprocess.run(command, stderr=subprocess.PIPE, text=True, check=False)
    assert done.returncode == 1 and "has no" in done.stderr and "FORGE" in done.stderr


def test_what_the_demonstration_leaves_is_what_is_served(forging: Server, demo: Path) -> None:
    members = {each["uid"] for each in forging.get("/wot/members").json["results"]}
    assert members == {"alice", "bob", "dora"}
    assert json.loads(forging.get("/node/money").body)["conserved"] is True
    assert len(forging.get("/node/branches").json["stored"]) == 2


@needs_silkaj
def test_silkaj_brings_a_newcomer_in_and_revokes(silkaj: Run, forging: Server, currency: Path, tmp_path: Path) -> None:
    eve = new_wallet("eve", "demo")
    key_file = tmp_path / "eve.key"
    key_file.write_text(eve.issuer.seed.hex())
    # silkaj 0.11 has no command that publishes an identity
    assert forging.post("/wot/add", identity=eve.identity(forging.get("/node/head").json["stamp"])).status == 200
    assert "Membership successfully sent" in silkaj("wot", "membership", by=key_file, answers="y\n")
    for friend in ("alice", "bob"):
        assert "Certification successfully sent" in silkaj("wot", "certify", eve.key, by=currency / f"{friend}.key", answers="y\n")
    forging.forge()
    said = silkaj("wot", "status", "eve")
    assert "member: True" in said and "received 2 and sent 0/" in said and said.count(" ✔") == 2
    assert "Certification successfully sent" in silkaj("wot", "certify", "dora", by=key_file, answers="y\n")
    assert "stored into" in silkaj("wot", "revocation", "create", by=key_file, answers="y\n")
    assert "document is valid" in silkaj("wot", "revocation", "verify")
    assert "successfully sent" in silkaj("wot", "revocation", "publish", answers="y\n")
    forging.forge()
    forging.forge()
    said = silkaj("wot", "status", "eve")
    assert "member: False" in said and "revoked: True" in said
