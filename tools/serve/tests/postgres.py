"""A PostgreSQL server that tests start for themselves in a temporary folder, by an ordinary user."""
import os
import pwd
import shutil
import socket
import subprocess
import time
from pathlib import Path

_USER = "nobody"
_SECONDS_TO_START = 60
_SETTINGS = {
    "listen_addresses": "", "max_connections": "60", "shared_buffers": "16MB", "autovacuum": "off", "fsync": "on", "log_min_messages": "fatal",
    "dynamic_shared_memory_type": "posix",
}


def programs() -> Path | None:
    """The folder with the server's programs, where Debian's package is installed."""
    found = sorted(Path("/usr/lib/postgresql").glob("*/bin/postgres"), key=lambda path: int(path.parts[-3]))
    return found[-1].parent if found else None


def missing() -> str | None:
    """Why no server can be started here."""
    if programs() is None:
        return "postgresql is not installed"
    try:
        import psycopg2  # noqa: F401
    except ImportError:
        return "python3-psycopg2 is not installed"
    if os.geteuid() == 0 and shutil.which("setpriv") is None:
        return "the server refuses root, and there is no setpriv to start it as another user"
    return None


class Postgres:
    """A server in a folder, which is reached by a socket in it."""

    def __init__(self, folder: Path) -> None:
        found = programs()
        assert found is not None
        self._programs, self._data, self._sockets = found, folder / "data", folder / "run"
        self._as: list[str] = []
        self._data.mkdir(parents=True)
        self._sockets.mkdir()
        if os.geteuid() == 0:
            user = pwd.getpwnam(_USER)
            self._as = ["setpriv", f"--reuid={user.pw_uid}", f"--regid={user.pw_gid}", "--clear-groups"]
            for path in (self._data, self._sockets):
                os.chown(path, user.pw_uid, user.pw_gid)
            for parent in (folder, *folder.parents):
                if not parent.stat().st_mode & 0o001:
                    parent.chmod(parent.stat().st_mode | 0o011)
        self._run("initdb", "-D", str(self._data), "-U", "dubp", "--auth=trust", "--no-sync", "-E", "UTF8", "--locale=C")
        self._process: subprocess.Popen[bytes] | None = None
        self.start()

    def _run(self, program: str, *words: str) -> None:
        done = subprocess.run(
            [*self._as, str(self._programs / program), *words], cwd="/", stdout=subprocess.PIPE, stderr=subprocess.STDOUT, text=True, check=False)
        assert done.returncode == 0, done.stdout

    def start(self) -> None:
        """Starts it, and waits until it answers."""
        words = [word for name, value in _SETTINGS.items() for word in ("-c", f"{name}={value}")]
        command = [*self._as, str(self._programs / "postgres"), "-D", str(self._data), "-k", str(self._sockets), *words]
        self._process = subprocess.Popen(command, cwd="/", stdin=subprocess.DEVNULL, stdout=subprocess.DEVNULL, stderr=subprocess.DEVNULL)
        end = time.monotonic() + _SECONDS_TO_START
        while not self._answers():
            assert time.monotonic() < end and self._process.poll() is None, "the server of PostgreSQL did not start"
            time.sleep(0.05)

    def _answers(self) -> bool:
        try:
            with socket.socket(socket.AF_UNIX) as connection:
                connection.connect(str(self._sockets / ".s.PGSQL.5432"))
        except OSError:
            return False
        words = [str(self._programs / "pg_isready"), "-q", "-h", str(self._sockets)]
        return subprocess.run(words, check=False).returncode == 0

    def stop(self) -> None:
        """Ends it as its manager does: all connections end."""
        if self._process is not None:
            self._process.send_signal(2)
            self._process.wait(timeout=60)
            self._process = None

    def make(self, name: str) -> str:
        """Makes a database. Gives its address."""
        self.ask("postgres", f'CREATE DATABASE "{name}"')
        return self.address(name)

    def address(self, name: str) -> str:
        """The address of a database."""
        return f"postgresql://dubp@/{name}?host={self._sockets}"

    def ask(self, name: str, text: str) -> list[list[str]]:
        """The rows that psql gets, as an auditor would."""
        words = [str(self._programs / "psql"), "-h", str(self._sockets), "-U", "dubp", "-d", name, "-X", "-q", "-A", "-t", "-F", "\t", "-c", text]
        done = subprocess.run(words, stdout=subprocess.PIPE, stderr=subprocess.PIPE, text=True, check=False)
        assert done.returncode == 0, done.stderr
        return [line.split("\t") for line in done.stdout.splitlines()]
