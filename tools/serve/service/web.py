"""The HTTP side: one application over a ledger."""
import asyncio
import contextlib
import json
import time
import traceback
from collections import Counter
from collections.abc import Awaitable, Callable, Iterable
from pathlib import Path
from typing import Any

from aiohttp import web

from . import bma_chain, forms, node_pages
from .commands import BadWord
from .doors import Doors
from .following import Following
from .forging import Forger
from .ledger import Lacking, Ledger, Turn, Unavailable
from .limits import OWN_ADDRESSES, Budget, Limits, Origins, network_of
from .metrics import Metrics
from .page.pages import Page, is_of_page
from .program import ProgramEnded
from .refusals import BLOCK_REQUIRED, LIMITATION, UNHANDLED, UNKNOWN, WRONG_DOCUMENT, Refusal
from .routes import POSTS, READS, Post, Read, openapi
from .why import Trial, why
from .writes import submit_block, submit_document

LONGEST_BODY = 3_000_000
"""Bytes of a body; a longer one is refused with status 413."""

LONGEST_FORM = 600_000
"""Bytes of a body with a document: the longest payment has 100 lines in its compact form, each of some thousand characters, three times as long in a
form."""

MOST_STREAMS = 64
"""Event streams and websockets at once, of each kind."""

_OF_WHAT_WAITS = ("/wot/lookup/", "/wot/requirements", "/tx/history/", "/node/pool", "/node/sandboxes")
_MOST_KEPT = 20_000
_MOST_KEPT_BYTES = 64_000_000
_SECONDS_BETWEEN_PINGS = 15.0
_SECONDS_TO_RETRY = "2"
_SECONDS_TO_END = 2.0
_HEADERS = {"Access-Control-Allow-Origin": "*", "X-Content-Type-Options": "nosniff"}
_TYPE = "application/json"
Handler = Callable[[web.Request], Awaitable[web.StreamResponse]]


class _Kept:
    """Bodies of pages as they are for the state that there is; a new state drops them."""

    def __init__(self) -> None:
        self._bodies: dict[str, bytes] = {}
        self._bytes = 0

    def __len__(self) -> int:
        return len(self._bodies)

    def drop(self) -> None:
        """Drops all."""
        self._bodies, self._bytes = {}, 0

    def drop_what_waits(self) -> None:
        """Drops those that tell of documents that wait."""
        for path in [path for path in self._bodies if path.startswith(_OF_WHAT_WAITS)]:
            self._bytes -= len(self._bodies.pop(path))

    def get(self, path: str) -> bytes | None:
        """The body of a page, where it is kept."""
        return self._bodies.get(path)

    def put(self, path: str, body: bytes) -> None:
        """Keeps the body of a page."""
        if len(self._bodies) >= _MOST_KEPT or self._bytes + len(body) > _MOST_KEPT_BYTES:
            self.drop()
        self._bodies[path] = body
        self._bytes += len(body)


class Service:
    """A ledger behind HTTP."""

    def __init__(
        self, ledger: Ledger, program: Path, forger: Forger | None = None, *, forge_on_request: bool = False, limits: Limits = Limits(),
        proxies: Iterable[str] = (), following: Following | None = None,
    ) -> None:
        self._ledger, self._forger, self._following = ledger, forger, following
        self._forge_on_request, self._proxies = forge_on_request, frozenset(map(network_of, proxies))
        self._kept, self._streams = _Kept(), dict[str, int]()
        self._waiters: set[asyncio.Event] = set()
        self.limits, self.doors, self._origins = limits, Doors(limits, self._proxies), Origins(limits.waiting)
        self._budgets = {"reads": Budget(limits.reads), "documents": Budget(limits.documents)}
        self._over: Counter[str] = Counter()
        self.trial = Trial(ledger, program)
        self._page = Page(ledger, self.trial)
        self._metrics = Metrics(self)
        ledger.listen(self._tell)

    def application(self) -> web.Application:
        """The application with all paths."""
        application = web.Application(middlewares=[self._count, self._answer_refusals], client_max_size=LONGEST_BODY)
        router = application.router
        for read in READS:
            router.add_get(read.path, self._reader(read))
        for post in POSTS:
            router.add_post(post.path, self._poster(post))
        router.add_post("/blockchain/block", self._post_block)
        router.add_post("/node/why", self._post_why)
        router.add_post("/node/forge", self._post_forge)
        router.add_get("/node/events", self._events)
        router.add_get("/ws/block", self._websocket)
        router.add_get("/node/openapi.json", self._openapi)
        router.add_get("/metrics", self._show_metrics)
        self._page.add_to(router)
        return application

    def _tell(self) -> None:
        if self._ledger.has_chain_changed:
            self._kept.drop()
        else:
            self._kept.drop_what_waits()
        self._page.drop()
        for waiter in self._waiters:
            waiter.set()

    # pages

    def _reader(self, read: Read) -> Handler:
        async def handle(request: web.Request) -> web.StreamResponse:
            path = request.path
            body = self._kept.get(path)
            if body is None:
                words = [request.match_info[word] for word in read.words]
                body = await self._ledger.turn(lambda turn: self._make(turn, read, path, words))
            return web.Response(body=body, content_type=_TYPE, headers=_HEADERS)

        return handle

    async def _make(self, turn: Turn, read: Read, path: str, words: list[str]) -> bytes:
        # whoever waited for the turn may find what another had made meanwhile
        body = self._kept.get(path)
        if body is None:
            body = json.dumps(await read.page(turn, *words)).encode()
            self._kept.put(path, body)
        return body

    async def _openapi(self, _: web.Request) -> web.Response:
        return _json(openapi())

    # what is posted

    def _poster(self, post: Post) -> Handler:
        async def handle(request: web.Request) -> web.StreamResponse:
            raw = (await self._form(request, LONGEST_FORM)).get(post.field, b"")
            if not raw:
                raise Refusal(post.missing, f"The field {post.field} is missing")
            origin = self._origins.of(self._address(request))
            pending = await self._ledger.turn(lambda turn: submit_document(turn, post.kind, raw, origin))
            return _json({"hash": pending.hash, "type": pending.kind, "issuer": pending.issuer})

        return handle

    async def _post_block(self, request: web.Request) -> web.StreamResponse:
        form = await self._form(request)
        raw, signature = form.get("block", b""), form.get("signature", b"")
        if not raw:
            raise Refusal(BLOCK_REQUIRED, "The field block is missing")
        if signature and not raw.endswith(signature + b"\n"):
            raw += signature + b"\n"
        answer = await self._ledger.turn(lambda turn: submit_block(turn, raw))
        return _json({"answer": answer.split("\n")})

    async def _post_why(self, request: web.Request) -> web.StreamResponse:
        return _json(await why(self._ledger, self.trial, await self._body(request)))

    async def _post_forge(self, _: web.Request) -> web.StreamResponse:
        if self._forger is None or not self._forge_on_request:
            raise Refusal(UNKNOWN, "This service forges no block on request")
        return _json({"stamp": await self._forger.forge()})

    # who asks, and how much

    def _address(self, request: web.Request) -> str:
        """The address of who asks; behind a proxy that was named, the one that it tells."""
        address = network_of(request.remote or "")
        told = request.headers.get("X-Forwarded-For", "").split(",")[-1].strip()
        return network_of(told) if address in self._proxies and told else address

    @web.middleware
    async def _count(self, request: web.Request, handler: Handler) -> web.StreamResponse:
        begun, kind = time.monotonic(), _kind_of(request)
        self.doors.has_asked(request.transport)
        address = self._address(request)
        budget = "documents" if kind == "document" else "reads"
        if address not in OWN_ADDRESSES and not self._budgets[budget].takes(address):
            self._over[budget] += 1
            refusal = Refusal(LIMITATION, "This address asks too often: ask again later")
            response: web.StreamResponse = self._refuse(request, refusal)
        else:
            response = await handler(request)
        if kind != "stream":
            self._metrics.count(kind, response.status, begun)
        return response

    async def _body(self, request: web.Request, longest: int = LONGEST_BODY) -> bytes:
        if request.content_length is None:
            raise Refusal(UNHANDLED, "The length of the body is not told", 411)
        if request.content_length > longest:
            raise Refusal(UNHANDLED, f"A body has at most {longest} bytes here", 413)
        return await asyncio.wait_for(request.read(), self.limits.seconds_for_body)

    async def _form(self, request: web.Request, longest: int = LONGEST_BODY) -> dict[str, bytes]:
        """The fields of a form, each as bytes; a field that stands twice counts as its first. Raises a refusal where a field has bytes beyond
        ASCII."""
        raw = await self._body(request, longest)
        try:
            found = forms.fields(raw)
            if not raw.isascii() or not all(value.isascii() for value in found.values()):
                raise forms.NoForm("it has bytes beyond ASCII")
            return found
        except ValueError as error:
            raise Refusal(WRONG_DOCUMENT, "The body is no form of printable texts") from error

    # what is measured

    async def _show_metrics(self, _: web.Request) -> web.Response:
        body, content_type = self._metrics.page()
        return web.Response(body=body, headers={**_HEADERS, "Content-Type": content_type})

    def gauges(self) -> Iterable[tuple[str, str, float]]:
        """The numbers that go up and down."""
        ledger, index = self._ledger, self._ledger.index
        head = index.head()
        following = self._following
        yield "head_number", "The number of the last block, -1 for the empty chain.", -1 if head is None else head[0]
        yield "head_median_time", "MedianTime of the last block.", (None if head is None else index.median_time(head[0])) or 0
        yield "log_entries", "Entries of the log that this node has.", ledger.log.number
        yield "replay_seconds", "How long the last replay took.", ledger.seconds_of_replay
        yield "writes", "1 where this node writes, 0 where it follows.", int(ledger.can_write)
        yield "answers", "0 while this node begins again, else 1.", int(ledger.away is None)
        yield "database", "1 where the database is there, as far as is known.", int(following is None or following.is_connected)
        yield "taken_entries", "Entries of others that were taken since the start.", 0 if following is None else following.taken
        yield "stored_blocks", "Blocks of branches that are stored.", index.count("stored")
        yield "connections", "Connections that are open.", len(self.doors)
        yield "streams", "Event streams and websockets that are open.", sum(self._streams.values())
        yield "kept_pages", "Pages that are at hand.", len(self._kept)

    def refused(self) -> dict[str, int]:
        """How often each limit was reached."""
        return dict(self._over + self.doors.refused)

    def waiting(self) -> dict[str, int]:
        """How many documents of each kind wait."""
        return self._ledger.index.pending_counts()

    # streams

    async def _events(self, request: web.Request) -> web.StreamResponse:
        with self._stream("events") as changed:
            response = web.StreamResponse(headers={**_HEADERS, "Content-Type": "text/event-stream", "Cache-Control": "no-store"})
            await response.prepare(request)
            with contextlib.suppress(ConnectionError):
                await self._write_events(response, changed)
            return response

    async def _write_events(self, response: web.StreamResponse, changed: asyncio.Event) -> None:
        head, pool, branches = "", -1, -1
        while True:
            last, waiting, stored = await self._ledger.turn(node_pages.newest)
            if last is not None and last["stamp"] != head:
                head = last["stamp"]
                await response.write(_event("block", last))
            if waiting != pool:
                pool = waiting
                await response.write(_event("pool", {"waiting": waiting}))
            if stored != branches:
                branches = stored
                await response.write(_event("branches", {"stored": stored}))
            if not await _wait(changed, _SECONDS_BETWEEN_PINGS):
                await response.write(b": still here\n\n")

    async def _websocket(self, request: web.Request) -> web.StreamResponse:
        with self._stream("websockets") as changed:
            socket = web.WebSocketResponse(heartbeat=_SECONDS_BETWEEN_PINGS * 4, max_msg_size=4096)
            await socket.prepare(request)
            reader = asyncio.ensure_future(_read_to_end(socket))
            head = ""
            try:
                while not socket.closed and not reader.done():
                    last, *_ = await self._ledger.turn(node_pages.newest)
                    if last is not None and last["stamp"] != head:
                        head = last["stamp"]
                        await socket.send_json(await self._ledger.turn(bma_chain.current))
                    waiter = asyncio.ensure_future(_wait(changed, _SECONDS_BETWEEN_PINGS))
                    await asyncio.wait({reader, waiter}, return_when=asyncio.FIRST_COMPLETED)
                    waiter.cancel()
            finally:
                reader.cancel()
            return socket

    def _stream(self, kind: str) -> "_Stream":
        if self._streams.get(kind, 0) >= MOST_STREAMS:
            raise Unavailable("too many streams are open")
        return _Stream(kind, self._streams, self._waiters)

    # refusals

    @web.middleware
    async def _answer_refusals(self, request: web.Request, handler: Handler) -> web.StreamResponse:
        try:
            return await handler(request)
        except Refusal as refusal:
            return self._refuse(request, refusal)
        except BadWord as error:
            return self._refuse(request, Refusal(UNHANDLED, str(error)))
        except Lacking as error:
            return self._refuse(request, Refusal(UNHANDLED, f"The program that runs here has no command {error} yet", 501))
        except (Unavailable, ProgramEnded) as error:
            return self._refuse(request, Refusal(LIMITATION, str(error)))
        except asyncio.TimeoutError:
            return self._refuse(request, Refusal(UNHANDLED, "The body did not come in time", 408))
        except web.HTTPNotFound:
            return self._refuse(request, Refusal(UNKNOWN, "There is no such path"))
        except web.HTTPException as error:
            return self._refuse(request, Refusal(UNHANDLED, f"{error.reason}", error.status))
        except ConnectionError:
            # who asked is gone
            return web.Response(status=400)
        except Exception:
            traceback.print_exc()
            return self._refuse(request, Refusal(UNKNOWN, "The service failed at this; its log has more", 500))

    def _refuse(self, request: web.Request, refusal: Refusal) -> web.Response:
        return self._page.refused(refusal) if is_of_page(request.path) else _refused(refusal)


class _Stream:
    """One open stream, counted, with an event that tells of changes."""

    def __init__(self, kind: str, counts: dict[str, int], waiters: set[asyncio.Event]) -> None:
        self._kind, self._counts, self._waiters, self._event = kind, counts, waiters, asyncio.Event()

    def __enter__(self) -> asyncio.Event:
        self._counts[self._kind] = self._counts.get(self._kind, 0) + 1
        self._waiters.add(self._event)
        return self._event

    def __exit__(self, *_: object) -> None:
        self._counts[self._kind] -= 1
        self._waiters.discard(self._event)


async def _wait(changed: asyncio.Event, seconds: float) -> bool:
    try:
        await asyncio.wait_for(changed.wait(), seconds)
    except asyncio.TimeoutError:
        return False
    changed.clear()
    return True


async def _read_to_end(socket: web.WebSocketResponse) -> None:
    async for _ in socket:
        pass


def _event(name: str, value: dict[str, Any]) -> bytes:
    return f"event: {name}\ndata: {json.dumps(value)}\n\n".encode()


def _json(value: object) -> web.Response:
    return web.Response(body=json.dumps(value).encode(), content_type=_TYPE, headers=_HEADERS)


def _refused(refusal: Refusal) -> web.Response:
    headers = {**_HEADERS, "Retry-After": _SECONDS_TO_RETRY} if refusal.status == 503 else _HEADERS
    body = json.dumps({"ucode": refusal.ucode, "message": refusal.message, **({"rule": refusal.rule} if refusal.rule else {})})
    return web.Response(body=body.encode(), status=refusal.status, reason=refusal.reason(), content_type=_TYPE, headers=headers)


def _kind_of(request: web.Request) -> str:
    """What a request wants: to have something looked at or kept, to look at the page, to be told of news, or to read."""
    if request.method == "POST":
        return "document"
    if request.path in ("/node/events", "/ws/block"):
        return "stream"
    return "page" if is_of_page(request.path) else "read"


class Listening:
    """A service that is listened to."""

    def __init__(self, runner: web.AppRunner, server: asyncio.AbstractServer, watch: asyncio.Future[None]) -> None:
        self._runner, self._server, self._watch = runner, server, watch

    @property
    def port(self) -> int:
        """The port."""
        return int(self._server.sockets[0].getsockname()[1])  # type: ignore[attr-defined]

    async def cleanup(self) -> None:
        """Ends all connections."""
        self._watch.cancel()
        self._server.close()
        if self._runner.server is not None:
            await self._runner.server.shutdown(_SECONDS_TO_END)
        await self._runner.cleanup()


async def start(service: Service, host: str, port: int) -> tuple[Listening, int]:
    """Listens. Gives what is to be cleaned up, and the port (a free one where it was 0)."""
    runner = web.AppRunner(service.application(), access_log=None, keepalive_timeout=75.0)
    await runner.setup()
    assert runner.server is not None
    protocol = service.doors.protocol(runner.server)
    try:
        server = await asyncio.get_running_loop().create_server(protocol, host, port, backlog=1024)
    except OSError:
        await runner.cleanup()
        raise
    listening = Listening(runner, server, asyncio.ensure_future(service.doors.watch()))
    return listening, listening.port
