"""The command line of the service."""
import argparse
import asyncio
import contextlib
import logging
import signal
import sys
from pathlib import Path

from . import commands
from .commands import BadWord
from .database import place_of
from .following import Following
from .forging import Forger, Issuer, NoKey
from .ledger import Ledger, Role, Unavailable
from .limits import Limits, NoLimit
from .log import LogRefused
from .places import FAILED, PROGRAM
from .program import ProgramEnded
from .refusals import Refusal
from .web import Service, start
from .writes import switch_by_hand

LOG = "out/demo/log.sqlite"
PORT = 10901
_SECONDS_OF_A_THREAD = 0.0005

_NEEDED = {
    "OFFER": "blocks of branches are not stored",
    "PEND": "documents of wallets are not taken (their paths are answered 501)",
    "FORGE": "no block is forged, and whether a document fits is not tried",
    "STATEMENT": "the moves of an account come from the service's own index",
    "AUTO": "no branch is chosen by itself",
    "FAILED": "failures of the automatic choice are not told (501)",
}
_EPILOG = """\
exit status:
  0  it was ended by SIGTERM or SIGINT
  1  the log or the program cannot be used; standard error has the sentence
  2  wrong words, or a package is missing
"""


def words(given: list[str] | None = None) -> argparse.Namespace:
    """The words of the command line."""
    parser = argparse.ArgumentParser(prog="serve", description=__doc__, epilog=_EPILOG, formatter_class=argparse.RawDescriptionHelpFormatter)
    parser.add_argument("--program", type=Path, default=PROGRAM, help="the built dubp_node (default: that of this repository)")
    parser.add_argument(
        "--log", default=LOG,
        help=f"the SQLite file with the log, which is made where there is none, or postgresql://USER@HOST/DATABASE (default: {LOG})")
    parser.add_argument(
        "--as", dest="role", choices=[each.value for each in Role], default=Role.WRITER.value,
        help="with a log on a server: write, follow the node that writes, or follow and take its place when it is gone (default: writer)")
    parser.add_argument("--host", default="127.0.0.1", help="where to listen (default: 127.0.0.1)")
    parser.add_argument("--port", type=int, default=PORT, help=f"the port; 0 is a free one (default: {PORT})")
    parser.add_argument("--currency", help="the currency that the log has to be of")
    parser.add_argument("--key", type=Path, help="a file with a member's seed in 64 hexadecimal digits: blocks are forged by it")
    parser.add_argument("--pace", type=float, help="seconds between the time of the last block and the next forged one (default: avgGenTime)")
    parser.add_argument("--forge-on-request", action="store_true", help="forge at a POST to /node/forge, and not by itself")
    parser.add_argument("--auto", choices=("on", "off"), help="turn the program's automatic choice of a branch on or off")
    parser.add_argument("--switch", metavar="STAMP", help="put the stored branch with this stamp in the place of the chain's last blocks first")
    parser.add_argument("--limit", action="append", default=[], metavar="NAME=NUMBER", help=f"set a limit: {', '.join(vars(Limits()))}")
    parser.add_argument(
        "--proxy", action="append", default=[], metavar="ADDRESS", help="believe this address which one it asks for (X-Forwarded-For)")
    parser.add_argument("--rebuild", action="store_true", help="make the service's own index anew from the log")
    return parser.parse_args(given)


async def run(given: argparse.Namespace) -> int:
    """Serves until a signal comes. Gives the exit status."""
    try:
        limits = Limits().with_words(given.limit)
        issuer = None if given.key is None else Issuer.from_file(given.key)
        place, role = place_of(given.log), Role(given.role)
        ledger = await Ledger.open(given.program, place, role=role, currency=given.currency, rebuild=given.rebuild)
    except (NoKey, NoLimit, LogRefused, ProgramEnded) as error:
        _say(str(error))
        return FAILED
    try:
        following = None if ledger.server is None else Following(ledger, role, _say)
        return await _serve(given, ledger, issuer, limits, following)
    finally:
        await ledger.close()


async def _serve(given: argparse.Namespace, ledger: Ledger, issuer: Issuer | None, limits: Limits, following: Following | None) -> int:
    for command, sentence in _NEEDED.items():
        if ledger.lacks(command):
            _say(f"this program has no {command}: {sentence}")
    if issuer is not None and ledger.lacks("FORGE"):
        _say("no block can be forged by --key, since this program has no FORGE")
        return FAILED
    try:
        await _change_first(given, ledger)
    except (Refusal, BadWord, Unavailable) as error:
        _say(str(error))
        return FAILED
    forger = None if issuer is None else Forger(ledger, issuer, given.pace, given.forge_on_request)
    service = Service(
        ledger, given.program, forger, forge_on_request=given.forge_on_request, limits=limits, proxies=given.proxy, following=following)
    try:
        runner, port = await start(service, given.host, given.port)
    except OSError as error:
        _say(f"{given.host}:{given.port} cannot be listened at: {error.strerror}")
        return FAILED
    _say(f"at http://{given.host}:{port}, head {ledger.index.head_stamp()}")
    tasks = [asyncio.ensure_future(each.run()) for each in (forger, following) if each is not None]
    try:
        return await _until_ended(ledger, following)
    finally:
        for task in tasks:
            task.cancel()
            with contextlib.suppress(asyncio.CancelledError, Unavailable):
                await task
        if forger is not None:
            await forger.stop()
        await service.trial.close()
        await runner.cleanup()


async def _change_first(given: argparse.Namespace, ledger: Ledger) -> None:
    """Does what the words say before it listens. Raises a refusal, BadWord or Unavailable."""
    if given.switch:
        _say(await ledger.turn(lambda turn: switch_by_hand(turn, given.switch)))
    if given.auto and ledger.can_write and not ledger.lacks("AUTO"):
        await ledger.turn(lambda turn: turn.change(commands.auto(given.auto.upper())))


async def _until_ended(ledger: Ledger, following: Following | None) -> int:
    ended = asyncio.Event()
    loop = asyncio.get_running_loop()
    if following is not None:
        loop.add_signal_handler(signal.SIGUSR1, following.promote)
    for name in (signal.SIGTERM, signal.SIGINT):
        loop.add_signal_handler(name, ended.set)
    ledger.failure.add_done_callback(lambda _: ended.set())
    await ended.wait()
    if ledger.failure.done():
        _say(ledger.failure.result())
        return FAILED
    return 0


def _say(sentence: str) -> None:
    print(f"serve: {sentence}", file=sys.stderr, flush=True)


def main() -> int:
    """Runs the service. Gives the exit status."""
    # a thread that reads a long block hands over often
    sys.setswitchinterval(_SECONDS_OF_A_THREAD)
    # requests that are none are counted, and not written about: whoever sends them would fill the journal
    for name in ("aiohttp.server", "asyncio"):
        logging.getLogger(name).setLevel(logging.CRITICAL)
    return asyncio.run(run(words()))
