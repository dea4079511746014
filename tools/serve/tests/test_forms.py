"""Forms are read as the standard library reads them, and what is no form is refused."""
from urllib.parse import parse_qs, quote_plus

import pytest
import support  # noqa: F401  (puts the service on the path)
from hypothesis import given
from hypothesis import strategies as st

from service.forms import NoForm, fields

CHARACTERS = "ab %+=_&\t\r\n\x00\x7f\xe9\xff"


@given(st.lists(st.tuples(st.text("ab", min_size=1, max_size=3), st.text(CHARACTERS, max_size=90)), min_size=1, max_size=5))
def test_what_is_encoded_is_read_back(pairs: list[tuple[str, str]]) -> None:
    raw = "&".join(f"{name}={quote_plus(value, encoding='latin-1')}" for name, value in pairs)
    wanted = {name: values[0] for name, values in parse_qs(raw, keep_blank_values=True, encoding="latin-1").items()}
    assert {name: value.decode("latin-1") for name, value in fields(raw.encode()).items()} == wanted


@given(st.text("a=_.~ +\x00", max_size=90))
def test_what_is_not_encoded_stays(text: str) -> None:
    assert fields(f"x={text}".encode()) == {"x": text.replace("+", " ").encode()}


@pytest.mark.parametrize("raw", [b"a", b"a=b&", b"a=b&" * 20, b"&", b"a=%", b"a=%4", b"a=%g1", b"a=b\nc", b"a=b\r", b"a=%%41", b"%=a"])
def test_what_is_no_form(raw: bytes) -> None:
    with pytest.raises(NoForm):
        fields(raw)


def test_an_empty_body_has_no_field() -> None:
    assert fields(b"") == {}
