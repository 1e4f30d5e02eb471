"""The package of pressroom, wherever the tests are started, and what several tests of the night use."""
import os
import sys
import tempfile

import pytest

sys.path.insert(0, os.path.join(os.path.dirname(os.path.abspath(__file__)), "..", ".."))


@pytest.fixture
def folder(tmp_path):
    """A folder in memory where that is possible: the journal syncs each transaction."""
    memory = "/dev/shm" if os.access("/dev/shm", os.W_OK) else str(tmp_path)
    with tempfile.TemporaryDirectory(dir=memory) as name:
        os.mkdir(os.path.join(name, "spool"))
        yield os.path.join(name, "spool")


@pytest.fixture
def world(folder):
    """A service over a spool, which is killed at the end."""
    from loop import World

    made = World(folder)
    made.open()
    yield made
    made.kill()
