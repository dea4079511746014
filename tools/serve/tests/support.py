"""Servers that tests start, and what they ask them."""
import contextlib
import http.client
import json
import os
import re
import signal
import sqlite3
import subprocess
import sys
import threading
import time
from pathlib import Path
from typing import Any
from urllib.parse import urlencode

TOOL = Path(__file__).resolve().parents[1]
sys.path.insert(0, str(TOOL))
from service.database import File  # noqa: E402
from service.index import Index  # noqa: E402
from service.storage import Storage  # noqa: E402

PROGRAM = Path(os.environ.get("DUBP_NODE", TOOL.parents[1] / "crates" / "dubp_node" / "out" / "dubp_node"))
SECONDS_TO_START = 60
FORM = {"Content-Type": "application/x-www-form-urlencoded"}


class Answer:
    """Status, reason phrase and body of an answer."""

    def __init__(self, response: http.client.HTTPResponse) -> None:
        self.status, self.reason, self.headers = response.status, response.reason, response.headers
        self.body = response.read()

    @property
    def json(self) -> Any:
        """The body as JSON."""
        return json.loads(self.body)

    @property
    def ucode(self) -> int:
        """Duniter's code of a refusal."""
        return int(self.json["ucode"])


class Server:
    """A running `tools/serve/serve`."""

    def __init__(self, log: Path | str, *words: str, program: Path = PROGRAM) -> None:
        self.said: list[str] = []
        command = [str(TOOL / "serve"), "--program", str(program), "--log", str(log), "--port", "0", *words]
        self.process = subprocess.Popen(command, stderr=subprocess.PIPE, text=True)
        assert self.process.stderr is not None
        self.port = 0
        for line in self.process.stderr:
            self.said.append(line)
            found = re.search(r"at http://127\.0\.0\.1:(\d+), head", line)
            if found:
                self.port = int(found[1])
                break
        else:
            raise AssertionError(f"the service did not start: {self.said}")
        # what nobody reads would hold it up
        self._reading = threading.Thread(target=lambda: self.said.extend(self.process.stderr or ()), daemon=True)
        self._reading.start()

    def ask(
        self, method: str, path: str, body: bytes | None = None, headers: dict[str, str] | None = None, address: str = "127.0.0.1"
    ) -> Answer:
        """One request over a connection of its own, from some address of this machine."""
        connection = http.client.HTTPConnection("127.0.0.1", self.port, timeout=60, source_address=(address, 0))
        try:
            connection.request(method, path, body, headers or {})
            return Answer(connection.getresponse())
        finally:
            connection.close()

    def get(self, path: str) -> Answer:
        """A GET."""
        return self.ask("GET", path)

    def post(self, path: str, **fields: str) -> Answer:
        """A POST of a form."""
        return self.ask("POST", path, urlencode(fields).encode(), FORM)

    def forge(self) -> str:
        """The stamp of the next block."""
        answer = self.ask("POST", "/node/forge", b"", FORM)
        assert answer.status == 200, answer.body
        return str(answer.json["stamp"])

    def kill(self) -> None:
        """Ends it at once."""
        self.process.kill()
        self.process.wait()

    def stop(self) -> int:
        """Ends it as its manager does. Gives the status."""
        self.process.send_signal(signal.SIGTERM)
        status = self.process.wait(timeout=30)
        self._reading.join()
        return status

    def failed(self) -> str:
        """What it said that ended by itself with status 1."""
        assert self.process.wait(timeout=30) == 1
        self._reading.join()
        return "".join(self.said)

    def __enter__(self) -> "Server":
        return self

    def __exit__(self, *_: object) -> None:
        if self.process.poll() is None:
            self.stop()


def fails_to_start(log: Path | str, *words: str, program: Path = PROGRAM) -> str:
    """What a service says that ends with status 1 before it listens."""
    command = [str(TOOL / "serve"), "--program", str(program), "--log", str(log), "--port", "0", *words]
    done = subprocess.run(command, stderr=subprocess.PIPE, text=True, timeout=SECONDS_TO_START, check=False)
    assert done.returncode == 1, (done.returncode, done.stderr)
    return done.stderr


def index_of(log: Path) -> Index:
    """A copy of the index in the file of a log."""
    local = File()
    with contextlib.closing(sqlite3.connect(log)) as source:
        source.backup(local._raw)
    return Index(Storage(local))


def until(condition: Any, seconds: float = 30.0) -> None:
    """Waits until a condition holds."""
    end = time.monotonic() + seconds
    while not condition():
        assert time.monotonic() < end, "it did not come about"
        time.sleep(0.05)
