"""Nodes over one database killed at a few random moments; soak_test.py does it as often as is wanted."""
from pathlib import Path

import soak_test
from postgres import Postgres


def test_nothing_acknowledged_is_lost_by_many(postgres: Postgres, currency: Path) -> None:
    assert postgres is not None
    said = soak_test.run(currency, kills=1, submissions=60, seed=7)
    assert "nodes killed [1, 1, 1, 1] times, the database stopped 2 times" in said
