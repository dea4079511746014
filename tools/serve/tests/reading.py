"""Pages as texts, for tests without a browser."""
import html
import re

from support import Server

from service.page.markup import path


def said_by(page: bytes) -> str:
    """What a page says, without its tags."""
    return html.unescape(re.sub(r"\s+", " ", re.sub(r"<[^>]*>", " ", page.decode())))


def page_of(server: Server, *words: object) -> str:
    """The page of a path of words."""
    answer = server.get(path(*words))
    assert answer.status == 200, (words, answer.body)
    return answer.body.decode()
