"""Files are read whole up to a size."""
from pathlib import Path

import pytest

from pressroom.base.files import Unreadable, read_file


def test_the_most_bytes(tmp_path: Path) -> None:
    path = tmp_path / "a"
    path.write_bytes(b"12345")
    assert read_file(str(path), 5) == b"12345"
    with pytest.raises(Unreadable, match="more than 4 bytes"):
        read_file(str(path), 4)
