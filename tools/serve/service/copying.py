"""The command line of `tools/serve/copy_log`: a log with its index goes from one database to another that has none."""
import argparse
import asyncio
import sys
from pathlib import Path
from typing import Any

from .database import DATABASE_ERRORS, File, NoDatabase, Place, Server, is_server, place_of, said_by
from .index import Index
from .log import LogRefused
from .opening import Role, copy_index, new_local, open_log
from .places import FAILED
from .progress import Progress
from .schema import INDEX_TABLES, LOG
from .storage import Storage

_BEING_COPIED = "of a copy that was not finished"
_ROWS_AT_ONCE, _ENTRIES_AT_ONCE = 1000, 200


async def copy(source: Place, target: Place) -> int:
    """Copies log and index. Gives how many entries. Raises LogRefused where the source is none, or the target has entries; errors of the
    databases."""
    if not is_server(source) and not Path(source).is_file():
        raise LogRefused(f"{source}: there is no such log")
    storage, log, is_old = await open_log(source, Role.FOLLOWER if is_server(source) else Role.WRITER)
    try:
        if is_old:
            raise LogRefused(f"{log.name} has an index of another form: start the service with it once")
        local = storage.local
        if storage.server is not None:
            local = new_local()
            await copy_index(storage.server, Index(Storage(local)), log)
        into, copied, _ = await open_log(target, Role.WRITER)
        try:
            if copied.number or await copied.piece((0, ""), 1):
                raise LogRefused(f"{copied.name} has entries already")
            home = into.home
            home.begin()
            copied.set_fact("format", _BEING_COPIED)
            await _copy_index(local, home)
            progress, last = Progress("copied"), log.number
            rows: list[dict[str, Any]] = []
            async for entry in log.entries():
                if entry.number > last:
                    break
                rows.append(vars(entry))
                if len(rows) == _ENTRIES_AT_ONCE or entry.number == last:
                    home.put(LOG.insert(), rows)
                    await _keep(home)
                    rows = []
                progress.show(entry.number, last)
            progress.end()
            copied.note_form()
            await home.commit()
            return last
        finally:
            await into.close()
    finally:
        await storage.close()


async def _copy_index(local: File, home: File | Server) -> None:
    for table in INDEX_TABLES:
        names = table.c.keys()
        rows = [dict(zip(names, row)) for row in local.select(f"SELECT {', '.join(names)} FROM {table.name}")]
        for start in range(0, len(rows), _ROWS_AT_ONCE):
            home.put(table.insert(), rows[start : start + _ROWS_AT_ONCE])
            await _keep(home)


async def _keep(home: File | Server) -> None:
    """A server is sent a piece at a time; a file is written as one transaction."""
    if isinstance(home, Server):
        await home.commit()


def main(given: list[str] | None = None) -> int:
    """Copies. Gives the exit status."""
    parser = argparse.ArgumentParser(prog="copy_log", description="Copies a log, with its index, to a file or a database that has none.")
    parser.add_argument("source", metavar="FROM", help="a SQLite file that no service has open, or postgresql://USER@HOST/DATABASE")
    parser.add_argument("target", metavar="TO", help="a file that is made, or an empty database on a server")
    asked = parser.parse_args(given)
    try:
        count = asyncio.run(copy(place_of(asked.source), place_of(asked.target)))
    except (LogRefused, NoDatabase) as error:
        print(f"copy_log: {error}", file=sys.stderr)
        return FAILED
    except DATABASE_ERRORS as error:
        print(f"copy_log: {said_by(error)}", file=sys.stderr)
        return FAILED
    print(f"{count} entries are copied")
    return 0
