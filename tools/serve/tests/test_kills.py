"""The service killed at some random moments; kill_test.py does it as often as is wanted."""
from pathlib import Path

import kill_test


def test_nothing_acknowledged_is_lost(currency: Path) -> None:
    said = kill_test.run(currency, kills=4, submissions=60, seed=7)
    assert "killed 4 times" in said
