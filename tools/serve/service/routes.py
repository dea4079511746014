"""Every path: what serves it, and what the page on the interface says of it."""
from collections.abc import Awaitable, Callable
from dataclasses import dataclass
from typing import Any

from . import bma_chain, bma_money, bma_people, node_pages
from .writes import CERTIFICATION, IDENTITY, MEMBERSHIP, REVOCATION, TRANSACTION

Page = Callable[..., Awaitable[Any]]


@dataclass(frozen=True)
class Read:
    """A page: its path with names of words in braces, and the function of a turn and the words."""

    path: str
    page: Page

    @property
    def words(self) -> list[str]:
        """The names of the words of the path."""
        return [part[1:-1] for part in self.path.split("/") if part.startswith("{")]


@dataclass(frozen=True)
class Post:
    """A path to which a document is posted: the form's field, the code where it is missing, and the kind."""

    path: str
    field: str
    missing: int
    kind: str


READS = [
    Read("/tx/sources/{pubkey}", bma_chain.sources),
    Read("/tx/history/{pubkey}/pending", bma_money.pending),
    Read("/tx/history/{pubkey}", bma_money.history),
    Read("/tx/history/{pubkey}/blocks/{first}/{last}", bma_money.history_of_blocks),
    Read("/tx/history/{pubkey}/times/{first}/{last}", bma_money.history_of_times),
    Read("/ud/history/{pubkey}", bma_money.dividends),
    Read("/blockchain/current", bma_chain.current),
    Read("/blockchain/parameters", bma_chain.parameters),
    Read("/blockchain/block/{number}", bma_chain.block),
    Read("/blockchain/blocks/{count}/{start}", bma_chain.blocks),
    Read("/blockchain/with/{kind}", bma_chain.with_lines),
    Read("/blockchain/difficulties", bma_chain.difficulties),
    Read("/blockchain/hardship/{word}", bma_chain.hardship),
    Read("/blockchain/memberships/{word}", bma_chain.memberships),
    Read("/blockchain/branches", bma_chain.branches),
    Read("/wot/lookup/{word}", bma_people.lookup),
    Read("/wot/identity-of/{word}", bma_people.identity_of),
    Read("/wot/requirements/{word}", bma_people.requirements),
    Read("/wot/requirements-of-pending/{count}", bma_people.requirements_of_pending),
    Read("/wot/certifiers-of/{word}", bma_people.certifiers_of),
    Read("/wot/certified-by/{word}", bma_people.certified_by),
    Read("/wot/members", bma_people.members),
    Read("/node/summary", bma_chain.summary),
    Read("/node/sandboxes", bma_chain.sandboxes),
    Read("/node/head", node_pages.head),
    Read("/node/money", node_pages.money),
    Read("/node/accounts/{condition}", node_pages.account),
    Read("/node/blocks/{number}", node_pages.block),
    Read("/node/distance/{key}", node_pages.distance),
    Read("/node/points", node_pages.points),
    Read("/node/people", node_pages.everybody),
    Read("/node/people/{word}", node_pages.person),
    Read("/node/meaning/{condition}", node_pages.meaning),
    Read("/node/branches", node_pages.branches),
    Read("/node/failures", node_pages.failures),
    Read("/node/pool", node_pages.pool),
]

POSTS = [
    Post("/tx/process", "transaction", 1106, TRANSACTION),
    Post("/wot/add", "identity", 1102, IDENTITY),
    Post("/wot/certify", "cert", 1108, CERTIFICATION),
    Post("/wot/revoke", "revocation", 1109, REVOCATION),
    Post("/blockchain/membership", "membership", 1105, MEMBERSHIP),
]

_OTHERS = {
    "/blockchain/block": ("post", "A block in the form's fields block and signature: to the chain where it stands on the last one, else stored."),
    "/node/why": ("post", "What the chain would answer to the raw block or document in the body, and why; nothing changes."),
    "/node/forge": ("post", "Forges a block now, where the service was started with --forge-on-request."),
    "/node/events": ("get", "Server-sent events: block and pool."),
    "/ws/block": ("get", "A websocket with each new block, the last one first."),
    "/metrics": ("get", "Numbers of the service, in the text form of Prometheus."),
}


def openapi() -> dict[str, Any]:
    """The description of all paths."""
    paths: dict[str, Any] = {}
    refused = {"description": "A refusal: {\"ucode\": .., \"message\": ..}"}
    for read in READS:
        parameters = [{"name": word, "in": "path", "required": True, "schema": {"type": "string"}} for word in read.words]
        said = {"200": {"description": "JSON", "content": {"application/json": {}}}, "4XX": refused, "5XX": refused}
        paths[read.path] = {"get": {"summary": _first_line(read.page), "parameters": parameters, "responses": said}}
    for post in POSTS:
        schema = {"type": "object", "required": [post.field], "properties": {post.field: {"type": "string"}}}
        body = {"content": {"application/x-www-form-urlencoded": {"schema": schema}}}
        said = {"200": {"description": "The document waits"}, "4XX": refused, "5XX": refused}
        paths[post.path] = {"post": {"summary": f"Submits a signed {post.kind}.", "requestBody": body, "responses": said}}
    for path, (method, summary) in _OTHERS.items():
        paths.setdefault(path, {})[method] = {"summary": summary, "responses": {"200": {"description": "Done"}, "4XX": refused, "5XX": refused}}
    info = {"title": "dubp_node", "version": "0.1.0", "description": "A node of a DUBP currency: BMA, and what it lacks under /node."}
    return {"openapi": "3.0.3", "info": info, "paths": paths}


def _first_line(page: Page) -> str:
    return (page.__doc__ or "").split("\n")[0]
