"""Where the tests find things."""

import os

TOOLS = os.path.dirname(os.path.dirname(os.path.abspath(__file__)))
ROOT = os.path.dirname(TOOLS)
PROGRAM = os.path.join(ROOT, "crates/penne_nodes/out/penne_nodes")
