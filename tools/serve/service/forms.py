"""Forms that are posted. A body of some megabytes is read in a few milliseconds, so that nobody waits for it."""
import binascii

_MOST_FIELDS = 16


class NoForm(ValueError):
    """A body is no form."""


def fields(raw: bytes) -> dict[str, bytes]:
    """The fields of a form of type `application/x-www-form-urlencoded`; one that stands twice counts as its first. Raises NoForm."""
    found: dict[str, bytes] = {}
    if raw.count(b"&") >= _MOST_FIELDS:
        raise NoForm(f"it has more than {_MOST_FIELDS} fields")
    if b"\n" in raw or b"\r" in raw:
        raise NoForm("it has the end of a line")
    for part in raw.split(b"&") if raw else []:
        name, equals, value = part.partition(b"=")
        if not equals:
            raise NoForm("a field has no value")
        found.setdefault(_decoded(name).decode("latin-1"), _decoded(value))
    return found


def _decoded(text: bytes) -> bytes:
    """Escapes differ from those of quoted-printable text by their first character, and the library is fast at these."""
    found = binascii.a2b_qp(text.replace(b"+", b" ").replace(b"=", b"=3D").replace(b"%", b"="))
    # each escape is two characters longer than what it stands for; what is none stays as long as it is
    if len(found) != len(text) - 2 * text.count(b"%"):
        raise NoForm("it has a % that is no escape")
    return found
