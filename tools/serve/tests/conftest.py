"""What several tests share: what the program has, a demonstration currency, servers of it."""
import asyncio
import shutil
import subprocess
from collections.abc import Callable, Iterator
from pathlib import Path

import generated
import pytest
from hypothesis import HealthCheck, settings
from postgres import Postgres, missing
from support import PROGRAM, TOOL, Server

from service.copying import copy
from service.forging import Issuer
from service.history import entries
from service.wallet import Wallet

# a machine with other work is slow at times; no example is kept beside the tests
settings.register_profile("here", deadline=None, database=None, suppress_health_check=[HealthCheck.too_slow])
settings.load_profile("here")
EXAMPLE = TOOL.parent / "verdicts" / "example"


def _knows(command: bytes) -> bool:
    done = subprocess.run([str(PROGRAM), "run"], input=command + b"\n", stdout=subprocess.PIPE, check=True)
    return done.stdout != b"BAD\n"


@pytest.fixture(scope="session")
def has_forge() -> bool:
    """Whether the program can forge, and so has a pool too."""
    return _knows(b"FORGE " + b"1" * 44 + b" 0")


@pytest.fixture(scope="session")
def generated_log(tmp_path_factory: pytest.TempPathFactory, has_forge: bool) -> Path:
    """The log of a generated chain, not to be changed: of 300 blocks, made anew; where the program cannot forge, of the 100 blocks of an example."""
    log = tmp_path_factory.mktemp("generated") / "log.sqlite"
    if has_forge:
        asyncio.run(generated.make(PROGRAM, log, 300, 7))
    else:
        given = entries(TOOL.parents[1] / "examples" / "generated_and_reversed.in")
        end = next(place for place, command in enumerate(given) if command.word == "REVERT")
        asyncio.run(generated.feed(PROGRAM, log, given[:end]))
    return log


@pytest.fixture(scope="session")
def demo(tmp_path_factory: pytest.TempPathFactory, has_forge: bool) -> Path:
    """The folder of a demonstration currency, not to be changed."""
    if not has_forge:
        pytest.skip("this program has no FORGE yet")
    folder = tmp_path_factory.mktemp("demo")
    command = [str(TOOL.parent / "demo"), str(folder / "currency"), "--program", str(PROGRAM)]
    done = subprocess.run(command, stdout=subprocess.PIPE, stderr=subprocess.STDOUT, text=True, timeout=240, check=False)
    assert done.returncode == 0, done.stdout
    (folder / "said").write_text(done.stdout)
    return folder / "currency"


@pytest.fixture
def currency(demo: Path, tmp_path: Path) -> Path:
    """A copy of the demonstration currency."""
    folder = tmp_path / "currency"
    shutil.copytree(demo, folder)
    return folder


@pytest.fixture
def serve(currency: Path) -> Iterator[Callable[..., Server]]:
    """Starts servers of the copy, and ends them."""
    started: list[Server] = []

    def start(*words: str) -> Server:
        started.append(Server(currency / "log.sqlite", *words))
        return started[-1]

    yield start
    for server in started:
        if server.process.poll() is None:
            server.stop()


@pytest.fixture
def forging(serve: Callable[..., Server], currency: Path) -> Server:
    """A server that forges on request by the key of alice."""
    return serve("--key", str(currency / "alice.key"), "--forge-on-request")


@pytest.fixture
def people(currency: Path) -> dict[str, Wallet]:
    """The four people of the demonstration."""
    return {uid: Wallet(Issuer.from_file(currency / f"{uid}.key"), uid, "demo") for uid in ("alice", "bob", "carol", "dora")}


@pytest.fixture(scope="session")
def postgres(tmp_path_factory: pytest.TempPathFactory) -> Iterator[Postgres]:
    """A PostgreSQL server of the tests' own."""
    reason = missing()
    if reason is not None:
        pytest.skip(reason)
    server = Postgres(tmp_path_factory.mktemp("postgres"))
    yield server
    server.stop()


@pytest.fixture
def database(postgres: Postgres, currency: Path) -> str:
    """The address of a database with a copy of the demonstration currency."""
    address = postgres.make(currency.parent.name)
    asyncio.run(copy(currency / "log.sqlite", address))
    return address


@pytest.fixture
def nodes() -> Iterator[Callable[..., Server]]:
    """Starts servers of any log, and ends them."""
    started: list[Server] = []

    def start(log: Path | str, *words: str, program: Path = PROGRAM) -> Server:
        started.append(Server(log, *words, program=program))
        return started[-1]

    yield start
    for server in started:
        if server.process.poll() is None:
            server.kill()


@pytest.fixture
def example_log(tmp_path: Path) -> Path:
    """The log of a service that was given the five blocks of the example of tools/verdicts."""
    with Server(tmp_path / "log.sqlite") as server:
        for place in range(5):
            assert server.post("/blockchain/block", block=(EXAMPLE / f"block-{place}").read_text()).status == 200
    return tmp_path / "log.sqlite"
