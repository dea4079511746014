"""The command line of `tools/dubp`."""
import argparse
import asyncio
import http.client
import json
import sys
from collections.abc import Callable, Iterable
from datetime import datetime
from pathlib import Path
from typing import Any
from urllib.parse import quote

from . import spelling
from .commands import BadWord
from .database import is_server, place_of
from .ledger import Lacking, Ledger, Role, Turn, Unavailable
from .log import LogRefused
from .main import PORT
from .places import FAILED, PROGRAM
from .program import ProgramEnded
from .refusals import Refusal
from .routes import READS
from .why import Trial, why

REFUSED = 3
_SECONDS = 60.0
_LAST_SECOND = 253_402_300_799
_EPILOG = """\
exit status:
  0  it was answered; for why: it would be accepted
  1  it cannot be answered; standard error says why
  2  wrong words, or a package is missing
  3  why: it would be refused
"""
Shown = dict[str, Any]


class Failure(Exception):
    """The question cannot be answered; the message says why."""


class OverHttp:
    """A running service."""

    def __init__(self, address: str) -> None:
        host, _, port = address.rpartition(":")
        if not host or not port.isdecimal():
            raise Failure(f"{address} is no HOST:PORT")
        self._host, self._port = host, int(port)

    def get(self, *words: str) -> Any:
        """The JSON of a path of words. Raises Failure."""
        return self._ask("GET", "/" + "/".join(quote(word, safe="") for word in words), None)

    def why(self, raw: bytes) -> Shown:
        """What the chain would answer to a block or document."""
        found: Shown = self._ask("POST", "/node/why", raw)
        return found

    def close(self) -> None:
        """Nothing is left open."""

    def _ask(self, method: str, path: str, body: bytes | None) -> Any:
        connection = http.client.HTTPConnection(self._host, self._port, timeout=_SECONDS)
        try:
            connection.request(method, path, body)
            answer = connection.getresponse()
            content = answer.read()
            found = json.loads(content)
        except (OSError, http.client.HTTPException) as error:
            raise Failure(f"no service answers at {self._host}:{self._port}: {error} (start one, or give a --log)") from error
        except ValueError as error:
            raise Failure(f"what answers at {self._host}:{self._port} is no service of this kind") from error
        finally:
            connection.close()
        if answer.status != 200:
            raise Failure(str(found.get("message", answer.status)) if isinstance(found, dict) else str(answer.status))
        return found


class OverLog:
    """A log alone, replayed into a program of its own."""

    def __init__(self, word: str, program: Path) -> None:
        log = place_of(word)
        if isinstance(log, Path) and not log.is_file():
            raise Failure(f"{log}: there is no such log")
        self._loop, self._program = asyncio.new_event_loop(), program
        self._pages = {tuple(read.path.strip("/").split("/")): read for read in READS}
        try:
            self._ledger = self._loop.run_until_complete(
                Ledger.open(program, log, role=Role.FOLLOWER if is_server(log) else Role.WRITER))
        except (LogRefused, ProgramEnded) as error:
            self._loop.close()
            raise Failure(str(error)) from error

    def get(self, *words: str) -> Any:
        """The JSON of a path of words. Raises Failure."""
        read = next(self._pages[parts] for parts in self._pages if len(parts) == len(words) and all(
            part.startswith("{") or part == word for part, word in zip(parts, words)))
        given = [word for part, word in zip(read.path.strip("/").split("/"), words) if part.startswith("{")]

        async def page(turn: Turn) -> Any:
            return await read.page(turn, *given)

        return self._run(self._ledger.turn(page))

    def why(self, raw: bytes) -> Shown:
        """What the chain would answer to a block or document."""

        async def work() -> Shown:
            trial = Trial(self._ledger, self._program)
            try:
                return await why(self._ledger, trial, raw)
            finally:
                await trial.close()

        found: Shown = self._run(work())
        return found

    def close(self) -> None:
        """Ends the program."""
        self._loop.run_until_complete(self._ledger.close())
        self._loop.close()

    def _run(self, work: Any) -> Any:
        try:
            return self._loop.run_until_complete(work)
        except Lacking as error:
            raise Failure(f"the program has no command {error} yet") from error
        except (Refusal, BadWord, Unavailable, ProgramEnded) as error:
            raise Failure(str(error)) from error


Node = OverHttp | OverLog


# what is asked, and how it is shown to people

def _plain(text: object) -> str:
    """A text of strangers as a terminal may have it."""
    return "".join(character if character.isprintable() else "?" for character in str(text))


def _table(heads: list[str], rows: Iterable[Iterable[object]]) -> list[str]:
    cells = [heads, *([_plain(cell) for cell in row] for row in rows)]
    widths = [max(len(row[place]) for row in cells) for place in range(len(heads))]
    return ["  ".join(cell.ljust(width) for cell, width in zip(row, widths)).rstrip() for row in cells]


def _facts(rows: Iterable[tuple[str, object]]) -> list[str]:
    pairs = [(name, _plain(value)) for name, value in rows]
    width = max(len(name) for name, _ in pairs)
    return [f"{name.ljust(width)}  {value}" for name, value in pairs]


def _time(second: int | None) -> str:
    if second is None or not 0 <= second <= _LAST_SECOND:
        return f"second {second}"
    return f"{datetime.fromtimestamp(second).astimezone():%Y-%m-%d %H:%M:%S %Z} (second {second})"


def head(node: Node, _: str) -> tuple[Any, list[str]]:
    """The last block and the money."""
    found, money = node.get("node", "head"), node.get("node", "money")
    rows = [
        ("block", found["stamp"]), ("median time", _time(found["median_time"])), ("members", f"{found['members']:,}"),
        ("least difficulty", found["pow_min"]), ("dividend", f"{found['dividend'] * 10 ** found['unit_base']:,} units"),
        ("issued", f"{money['issued']:,} units"), ("unspent", f"{money['unspent']:,} units"), ("cleared", f"{money['cleared']:,} units"),
    ]
    return {"head": found, "money": money}, _facts(rows)


def member(node: Node, word: str) -> tuple[Any, list[str]]:
    """A person by name or key."""
    found = node.get("node", "people", word)
    told = found["distance"]
    rows = [
        ("name", found["uid"]), ("key", found["key"]), ("state", found["state"] + (", sentry" if found["is_sentry"] else "")),
        ("membership ends", _time(found["expires"])), ("identity in block", found["written"]),
        ("distance", f"{told['reached']} of {told['sentries']} sentries: {'near enough' if told['passes'] else 'not near enough'}"),
    ]
    certifications = [
        [way, each["uid"], _time(each["expires"])]
        for way in ("received", "issued") for each in sorted(found["certifications"][way], key=lambda each: int(each["expires"]))
    ]
    return found, [*_facts(rows), "", *_table(["certification", "other", "ends"], certifications)]


def _account(node: Node, word: str) -> Any:
    is_name = spelling.is_uid(word) and not spelling.is_key(word)
    return node.get("node", "accounts", node.get("node", "people", word)["key"] if is_name else word)


def balance(node: Node, word: str) -> tuple[Any, list[str]]:
    """The balance of a name, a key or a condition."""
    found = _account(node, word)
    meaning = node.get("node", "meaning", found["condition"])["meaning"]
    shown = {"condition": found["condition"], "meaning": meaning, "balance": found["balance"], "sources": found["sources"]}
    rows = [("condition", found["condition"]), ("who may spend", meaning), ("balance", f"{found['balance']:,} units")]
    return shown, [*_facts(rows), "", *_table(["units", "source"], [(f"{each['units']:,}", each["source"]) for each in found["sources"]])]


def history(node: Node, word: str) -> tuple[Any, list[str]]:
    """The moves of a name, a key or a condition, each with the balance behind it."""
    found = _account(node, word)
    rows = [
        (each["block"], _time(each["time"]), each["kind"].lower(), f"{'+' if each['kind'] == 'MADE' else '-'}{each['units']:,}",
         f"{each['balance']:,}", each["source"])
        for each in found["moves"]
    ]
    return found["moves"], _table(["block", "time", "what", "units", "balance", "source"], rows)


def block(node: Node, word: str) -> tuple[Any, list[str]]:
    """A block: its text, and its records with the line that caused each."""
    found = node.get("node", "blocks", word)
    lines = [(place, line) for place, line in enumerate(found["text"].split("\n")[:-1], 1)]
    records = list(zip(found["causes"], found["records"]))
    return found, [_plain(found["stamp"]), "", *_table(["line", "text"], lines), "", *_table(["by line", "record"], records)]


def why_file(node: Node, word: str) -> tuple[Any, list[str]]:
    """Which rule a block or document in a file breaks; `-` is standard input."""
    try:
        raw = sys.stdin.buffer.read() if word == "-" else Path(word).read_bytes()
    except OSError as error:
        raise Failure(f"{word} cannot be read: {error.strerror}") from error
    found = node.why(raw)
    if found["accepted"]:
        return found, ["It would be accepted." if found["kind"] == "block" else "The next block would have it."]
    if found["rule"] is None:
        return found, ["The next block would not have it."]
    said = [f"It is refused by {found['rule']}: {found['sentence']}", f"The chapter is docs/protocol/{found['chapter']}.md."]
    if found["line"]:
        said.append(f"The first line that fits no block is line {found['line']}.")
    if found["false_signatures_in_lines"]:
        said.append(f"Signatures that are not true stand in the lines {', '.join(map(str, found['false_signatures_in_lines']))}.")
    rows = [(each["what"], each["value"], each["line"] or "") for each in found["values"]]
    return found, [*said, *(["", *_table(["what", "value", "line"], rows)] if rows else [])]


ASKED: dict[str, tuple[Callable[[Node, str], tuple[Any, list[str]]], str]] = {
    "head": (head, ""), "member": (member, "NAME|KEY"), "balance": (balance, "NAME|KEY|CONDITION"), "history": (history, "NAME|KEY|CONDITION"),
    "block": (block, "NUMBER"), "why": (why_file, "FILE"),
}


def words(given: list[str] | None = None) -> argparse.Namespace:
    """The words of the command line."""
    parser = argparse.ArgumentParser(prog="dubp", description=__doc__, epilog=_EPILOG, formatter_class=argparse.RawDescriptionHelpFormatter)
    where = argparse.ArgumentParser(add_help=False)
    where.add_argument("--at", default=f"127.0.0.1:{PORT}", metavar="HOST:PORT", help="the service that is asked (default: %(default)s)")
    where.add_argument("--log", help="ask this log, a file or a database on a server, without a service")
    where.add_argument("--program", type=Path, default=PROGRAM, help="with --log: the built dubp_node (default: that of this repository)")
    where.add_argument("--json", action="store_true", help="write JSON, for scripts")
    asked = parser.add_subparsers(dest="asked", required=True, metavar="QUESTION")
    for name, (function, word) in ASKED.items():
        one = asked.add_parser(name, parents=[where], help=function.__doc__, description=function.__doc__)
        if word:
            one.add_argument("word", metavar=word)
    return parser.parse_args(given)


def main(given: list[str] | None = None) -> int:
    """Asks and writes. Gives the exit status."""
    asked = words(given)
    try:
        node: Node = OverHttp(asked.at) if asked.log is None else OverLog(asked.log, asked.program)
        try:
            found, lines = ASKED[asked.asked][0](node, getattr(asked, "word", ""))
        finally:
            node.close()
    except Failure as error:
        print(f"dubp: {_plain(error)}", file=sys.stderr)
        return FAILED
    print(json.dumps(found, indent=1) if asked.json else "\n".join(lines))
    return REFUSED if asked.asked == "why" and not found["accepted"] else 0
