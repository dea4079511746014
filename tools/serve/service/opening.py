"""A log is opened: its databases, its form, and an index of that form."""
from enum import Enum
from pathlib import Path

from .database import DATABASE_ERRORS, File, NoDatabase, Place, Server, is_server, said_by
from .index import Index
from .log import Log, LogRefused
from .schema import FACT, INDEX_TABLES, LOG
from .storage import Storage


class Role(Enum):
    """What a node does with the log: it writes, it follows the one that writes, or it follows until it can take that one's place."""

    WRITER = "writer"
    FOLLOWER = "follower"
    STANDBY = "standby"


async def open_log(place: Place, role: Role) -> tuple[Storage, Log, bool]:
    """The databases, the log, and whether the index is to be made anew. Raises LogRefused."""
    if is_server(place):
        return await _open_server(str(place), role)
    if role is not Role.WRITER:
        raise LogRefused(f"{place} is a file, which one node has for itself: only a log on a PostgreSQL server is followed")
    return await _open_file(Path(place))


async def _open_file(path: Path) -> tuple[Storage, Log, bool]:
    if not path.parent.is_dir():
        raise LogRefused(f"{path} cannot be made, since there is no folder {path.parent}")
    file, log = None, None
    try:
        file = File(path)
        log = Log(file, str(path))
        file.be_alone()
        file.make_tables(FACT, LOG)
        is_of_this_form = await log.is_of_this_form()
        damage = file.damage()
        if damage is not None:
            raise LogRefused(f"{path} is damaged: {damage}{await log.whole_part()}")
        if not is_of_this_form:
            file.drop_tables(*INDEX_TABLES)
        file.make_tables()
        if is_of_this_form:
            log.note_form()
        await log.find_last()
        return Storage(file), log, not is_of_this_form
    except DATABASE_ERRORS as error:
        said = said_by(error)
        if "locked" in said:
            sentence = f"{path} is in use by another process"
        else:
            sentence = f"{path} cannot be used as a log: {said}{await log.whole_part() if log else ''}"
        _close(file)
        raise LogRefused(sentence) from error
    except LogRefused:
        _close(file)
        raise


def _close(file: File | None) -> None:
    if file is not None:
        file.close()


async def _open_server(address: str, role: Role) -> tuple[Storage, Log, bool]:
    try:
        server = Server(address)
    except NoDatabase as error:
        raise LogRefused(str(error)) from error
    try:
        await server.connect()
        log = Log(server, server.name)
        if role is Role.WRITER:
            if not await server.take_lock():
                raise LogRefused(f"{server.name} is in use by another node that writes")
            await server.make_tables()
        elif not await server.has_tables():
            raise LogRefused(f"{server.name} has no log yet: start the node that writes first")
        if not await log.is_of_this_form():
            raise LogRefused(f"{server.name} has another form of the index; this service reads that of a log of form 2")
        if role is Role.WRITER and await log.fact("format") is None:
            log.note_form()
            await server.commit()
        return Storage(new_local(), server), log, False
    except (*DATABASE_ERRORS, NoDatabase) as error:
        await server.close()
        raise LogRefused(f"{server.name} cannot be used: {said_by(error)}") from error
    except LogRefused:
        await server.close()
        raise


def new_local() -> File:
    """A database in memory with the tables of the index."""
    local = File()
    local.make_tables(*INDEX_TABLES)
    return local


async def copy_index(server: Server, index: Index, log: Log) -> None:
    """Takes over the index as the server has it, and which entry was the last then."""
    texts = [f"SELECT {', '.join(table.c.keys())} FROM {table.name}" for table in INDEX_TABLES]
    last, *rows = await server.at_once(["SELECT number, sum FROM log ORDER BY number DESC LIMIT 1", *texts])
    index.take_over({table.name: found for table, found in zip(INDEX_TABLES, rows)})
    log.pass_on_to((int(last[0][0]), str(last[0][1])) if last else (0, ""))
