"""The paths of the page, and how a view becomes an answer."""
import asyncio
import hashlib
from collections.abc import Awaitable, Callable
from pathlib import Path

from aiohttp import web

from .. import bma_chain, forms
from ..ledger import Lacking, Ledger, Turn, Unavailable
from ..refusals import UNHANDLED, Refusal
from ..series import series
from ..why import Trial, why
from . import persons, protocol, views, waiting
from .frame import View, framed
from .markup import written
from .views import Query

_FOLDER = Path(__file__).resolve().parent / "static"
_TYPES = {"page.css": "text/css", "page.js": "text/javascript", "icon.svg": "image/svg+xml"}
_POLICY = (
    "default-src 'none'; script-src 'self'; style-src 'self'; img-src 'self'; connect-src 'self'; form-action 'self'; base-uri 'none'; "
    "frame-ancestors 'none'"
)
HEADERS = {
    "Content-Security-Policy": _POLICY, "X-Content-Type-Options": "nosniff", "Referrer-Policy": "no-referrer",
    "Cross-Origin-Opener-Policy": "same-origin", "Cache-Control": "no-cache",
}
_LACKING = {
    "PEND": "Documents cannot wait: this program has no PEND yet.",
    "FORGE": "No block can be forged, and what one would have is not told: this program has no FORGE yet.",
    "OFFER": "Blocks of other branches are not stored: this program has no OFFER.",
    "AUTO": "No branch is chosen by itself: this program has no AUTO yet.",
    "FAILED": "Failures of the automatic choice are not told: this program has no FAILED yet.",
    "STATEMENT": "The moves of an account come from the service's own index, not from the program: it has no STATEMENT yet.",
}
_MOST_KEPT, _MOST_KEPT_BYTES = 500, 32_000_000
_SECONDS_FOR_BODY, _LONGEST_BODY = 30.0, 3_500_000
Make = Callable[[Turn, Query], Awaitable[View]]
PATHS: list[tuple[str, Make]] = [
    ("/", views.head), ("/page/people", views.people), ("/page/person/{word}", persons.person), ("/page/account/{word}", persons.account),
    ("/page/blocks", views.blocks), ("/page/block/{number}", views.block), ("/page/branches", waiting.branches), ("/page/pool", waiting.pool),
    ("/page/why", waiting.why), ("/node", views.interface), ("/page/parameters", views.parameters_view), ("/page/protocol", protocol.protocol),
    ("/page/protocol/{chapter}", protocol.protocol),
]


def is_of_page(path: str) -> bool:
    """Whether a path is one of the page, whose refusals are shown to people."""
    return path in ("/", "/node") or path.startswith("/page/")


class Page:
    """The views over a ledger. What was made is kept until the state changes."""

    def __init__(self, ledger: Ledger, trial: Trial) -> None:
        self._ledger, self._trial = ledger, trial
        self._kept: dict[str, tuple[int, bytes]] = {}
        self._bytes = 0
        # read from the index before somebody waits for it
        series(ledger.index)
        self._static = {name: (_FOLDER / name).read_bytes() for name in _TYPES}
        self._versions = {name: hashlib.sha256(body).hexdigest()[:12] for name, body in self._static.items()}

    def drop(self) -> None:
        """Drops what was made for a state that is gone."""
        self._kept.clear()
        self._bytes = 0

    def add_to(self, router: web.UrlDispatcher) -> None:
        """Adds the paths."""
        for path, make in PATHS:
            router.add_get(path, self._shows(make))
        router.add_get("/page/find", self._find)
        router.add_post("/page/why", self._why)
        router.add_get("/page/static/{name}", self._file)

    def _shows(self, make: Make) -> Callable[[web.Request], Awaitable[web.Response]]:
        async def handle(request: web.Request) -> web.Response:
            kept = self._kept.get(request.raw_path)
            if kept is None:
                query = {**dict(request.query), **request.match_info}
                kept = await self._ledger.turn(lambda turn: self._made(turn, make, query, request.raw_path))
            if make is waiting.why:
                # the program that tries is made ready while the question is written
                asyncio.ensure_future(self._make_ready())
            return _html(*kept)

        return handle

    async def _make_ready(self) -> None:
        try:
            await self._trial.make_ready()
        except Exception:
            return

    async def _made(self, turn: Turn, make: Make, query: Query, path: str) -> tuple[int, bytes]:
        try:
            view = await make(turn, query)
        except Refusal as error:
            view = views.refusal(error)
        except Lacking as error:
            view = views.refusal(Refusal(UNHANDLED, f"The program that runs here has no {error} yet, which this view needs.", 501))
        made = view.status, self._framed(turn, view)
        if view.status == 200:
            if len(self._kept) >= _MOST_KEPT or self._bytes + len(made[1]) > _MOST_KEPT_BYTES:
                self.drop()
            self._kept[path] = made
            self._bytes += len(made[1])
        return made

    def _framed(self, turn: Turn, view: View) -> bytes:
        try:
            currency = bma_chain.currency_of(turn)
        except Refusal:
            currency = "a currency without a block"
        lacks = [sentence for word, sentence in _LACKING.items() if turn.lacks(word)]
        return written(framed(view, currency=currency, head=turn.index.head_stamp(), lacks=lacks, versions=self._versions))

    def refused(self, refusal: Refusal) -> web.Response:
        """The answer where a page cannot be made."""
        lacks = [sentence for word, sentence in _LACKING.items() if self._ledger.lacks(word)]
        view = views.refusal(refusal)
        document = framed(view, currency="dubp_node", head="", lacks=lacks, versions=self._versions)
        return _html(refusal.status, written(document))

    async def _find(self, request: web.Request) -> web.Response:
        to = await self._ledger.turn(lambda turn: persons.find(turn, request.query.get("word", "")))
        return web.Response(status=303, headers={**HEADERS, "Location": to})

    async def _why(self, request: web.Request) -> web.Response:
        text = await _asked(request)
        raw = (text if text.endswith("\n") else text + "\n").encode("latin-1", "replace")
        try:
            if not text.strip():
                raise Refusal(UNHANDLED, "Nothing was put in")
            shown = await why(self._ledger, self._trial, raw)
            head = self._ledger.index.head_stamp()
            view = waiting.answered(head, shown, raw.decode("latin-1"))
        except Refusal as error:
            view = waiting.refused_question(error, text)
        except Lacking as error:
            said = f"Whether a document comes into a block is not told: the program that runs here has no {error} yet."
            view = waiting.refused_question(Refusal(UNHANDLED, said, 501), text)
        except Unavailable as error:
            view = waiting.refused_question(Refusal(UNHANDLED, str(error), 503), text)

        async def work(turn: Turn) -> bytes:
            return self._framed(turn, view)

        return _html(view.status, await self._ledger.turn(work))

    async def _file(self, request: web.Request) -> web.Response:
        name = request.match_info["name"]
        if name not in self._static:
            raise web.HTTPNotFound
        headers = {**HEADERS, "Cache-Control": "max-age=31536000, immutable"}
        return web.Response(body=self._static[name], content_type=_TYPES[name], charset="utf-8", headers=headers)


async def _asked(request: web.Request) -> str:
    """The text of the form, with the line feeds that a browser turned into two characters."""
    if request.content_length is None or request.content_length > _LONGEST_BODY:
        raise Refusal(UNHANDLED, "The text is too long for a block", 413)
    body = await asyncio.wait_for(request.read(), _SECONDS_FOR_BODY)

    try:
        return forms.fields(body).get(waiting.FORM_NAME, b"").decode("utf-8", "replace").replace("\r\n", "\n")
    except ValueError as error:
        raise Refusal(UNHANDLED, "The body is no form") from error


def _html(status: int, body: bytes) -> web.Response:
    return web.Response(status=status, body=body, content_type="text/html", charset="utf-8", headers=HEADERS)
