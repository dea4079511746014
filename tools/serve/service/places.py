"""What the command lines share: where the built program is, and how they end."""
from pathlib import Path

REPOSITORY = Path(__file__).resolve().parents[3]
PROGRAM = REPOSITORY / "crates" / "dubp_node" / "out" / "dubp_node"
FAILED = 1
