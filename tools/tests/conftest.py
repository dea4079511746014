"""A small repository of its own for each test, with a copy of a tool of this folder's parent in its tools/."""

import pathlib
import shutil
import subprocess
import sys

import pytest

TOOLS = pathlib.Path(__file__).resolve().parent.parent


class Repository:
    """A folder as the top of a repository is: crates.txt, crates/, tools/."""

    def __init__(self, top):
        self.top = top
        (top / "tools").mkdir(parents=True)

    def write(self, path, text):
        """Writes a file below the top, with the folders that it needs."""
        file = self.top / path
        file.parent.mkdir(parents=True, exist_ok=True)
        file.write_text(text, encoding="utf-8")
        return file

    def start(self, tool, *words, env=None):
        """Starts the tool of this name, copied into the repository, with these arguments."""
        to = self.top / "tools" / tool
        if not to.exists():
            shutil.copy(TOOLS / tool, to)
        how = {"stdout": subprocess.PIPE, "stderr": subprocess.PIPE, "text": True, "env": env}
        return subprocess.Popen([sys.executable, "-B", to, *map(str, words)], cwd=self.top, **how)

    def run(self, tool, *words, env=None):
        """Runs the tool to its end: its exit status, the lines of its output, and those of its errors."""
        ran = self.start(tool, *words, env=env)
        out, err = ran.communicate(timeout=120)
        return ran.returncode, out.splitlines(), err.splitlines()


@pytest.fixture
def repository(tmp_path):
    return Repository(tmp_path / "repository")
