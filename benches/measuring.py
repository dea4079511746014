"""Measures programs that read commands, and compares their answers."""
import os
import pathlib
import subprocess
import sys
import tempfile
import threading
import time
from collections.abc import Iterable, Sequence
from dataclasses import dataclass

TIME = "/usr/bin/time"
CHUNK = 1 << 20
# a line that is no command, whose answer stands behind those to the commands before it
FENCE, REFUSED_LINE = b"FENCE\n", b"BAD\n"
SECONDS_AT_MOST = 1200


@dataclass
class Cost:
    """Seconds of a processor, and the greatest memory in kibibytes."""

    seconds: float
    kibibytes: int


def run_once(command: Sequence[str], given: pathlib.Path) -> Cost:
    """What one run of a command costs whose answers are thrown away. The memory is told by `time`: what the system tells of a child counts this script's
    own memory too."""
    with open(given, "rb") as source, tempfile.NamedTemporaryFile("r") as told:
        child = subprocess.Popen([TIME, "--format=%M", f"--output={told.name}", *command], stdin=source, stdout=subprocess.DEVNULL)
        _, status, used = os.wait4(child.pid, 0)
        child.returncode = os.waitstatus_to_exitcode(status)
        if child.returncode != 0:
            sys.exit(f"{' '.join(command)} ends with status {child.returncode} on the input {given.name}")
        return Cost(used.ru_utime + used.ru_stime, int(told.read().split()[-1]))


def least(commands: Sequence[Sequence[str]], given: pathlib.Path, runs: int) -> list[Cost]:
    """The least time and the greatest memory of each command, which are run in turn so many times."""
    costs: list[list[Cost]] = [[] for _ in commands]
    for _ in range(runs):
        for found, command in zip(costs, commands):
            found.append(run_once(command, given))
    return [Cost(min(cost.seconds for cost in found), max(cost.kibibytes for cost in found)) for found in costs]


def difference(one: Sequence[str], other: Sequence[str], given: pathlib.Path) -> str | None:
    """The first difference between what two commands write, or None."""
    with open(given, "rb") as first, open(given, "rb") as second:
        children = [subprocess.Popen(command, stdin=source, stdout=subprocess.PIPE) for command, source in ((one, first), (other, second))]
        lines, found = 0, None
        while found is None:
            left, right = (child.stdout.read(CHUNK) for child in children)
            if left != right:
                found = first_line_apart(left, right, lines)
            elif not left:
                break
            lines += left.count(b"\n")
        for child in children:
            child.stdout.close()
        statuses = [child.wait() for child in children]
    if found is None and statuses[0] != statuses[1]:
        return f"the statuses are {statuses[0]} and {statuses[1]}"
    return found


def first_line_apart(left: bytes, right: bytes, lines: int) -> str:
    """Tells the first line that differs of two pieces, before which there are so many lines. A line may begin in a piece before."""
    common = os.path.commonprefix([left, right])
    begin = common.rfind(b"\n") + 1
    shown = [piece[begin:].split(b"\n")[0][:100].decode(errors="replace") for piece in (left, right)]
    return f"line {lines + common.count(10) + 1} of the answers is `{shown[0]}` and `{shown[1]}`"


class Fed:
    """A program that is given commands, none of them `BAD`, and waited for."""

    def __init__(self, command: Sequence[str]):
        self.child = subprocess.Popen(command, stdin=subprocess.PIPE, stdout=subprocess.PIPE)
        self.fences, self.wanted, self.changed = 0, 0, threading.Condition()
        threading.Thread(target=self.count, daemon=True).start()

    def count(self) -> None:
        """Counts the answers to lines that are no commands."""
        before = b""
        while piece := self.child.stdout.read1(CHUNK):
            with self.changed:
                self.fences += (before + piece).count(REFUSED_LINE)
                self.changed.notify()
            before = (before + piece)[1 - len(REFUSED_LINE) :]

    def give(self, commands: Iterable[bytes]) -> int:
        """Gives commands, waits until all are answered, and tells how many bytes they have."""
        length, self.wanted = 0, self.wanted + 1
        for piece in commands:
            length += len(piece)
            self.child.stdin.write(piece)
        self.child.stdin.write(FENCE)
        self.child.stdin.flush()
        with self.changed:
            if not self.changed.wait_for(lambda: self.fences >= self.wanted, timeout=SECONDS_AT_MOST):
                sys.exit(f"{self.child.args[0]} answered not all commands in {SECONDS_AT_MOST} seconds")
        # what follows the last answer is not to be counted with what is given next
        time.sleep(0.05)
        return length

    def seconds(self) -> float:
        """The seconds of a processor that it has used."""
        return int(pathlib.Path(f"/proc/{self.child.pid}/schedstat").read_text().split()[0]) / 1e9

    def kibibytes(self) -> int:
        """The greatest memory so far."""
        said = pathlib.Path(f"/proc/{self.child.pid}/status").read_text()
        return next(int(line.split()[1]) for line in said.splitlines() if line.startswith("VmHWM:"))

    def end(self) -> None:
        self.child.stdin.close()
        if self.child.wait() != 0:
            sys.exit(f"{self.child.args[0]} ends with status {self.child.returncode}")


def cost_behind(command: Sequence[str], before: Iterable[bytes], commands: Iterable[bytes]) -> tuple[int, Cost]:
    """The bytes of some commands, the seconds that they take behind others, and the greatest memory with these."""
    fed = Fed(command)
    fed.give(before)
    begin = fed.seconds()
    length = fed.give(commands)
    cost = Cost(fed.seconds() - begin, fed.kibibytes())
    fed.end()
    return length, cost
