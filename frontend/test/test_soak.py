"""A short soak of the gateway as a program: what comes and goes leaves nothing behind."""
from soak import soak


def test_a_soak_leaves_no_trace() -> None:
    soak(12_000, 100, 3_000, stay=0.5)
