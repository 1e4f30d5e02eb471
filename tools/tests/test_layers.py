"""The packages are layers: a module imports only from its own package and from those below it.

The order is that of the table in docs/ARCHITECTURE.md, lowest first, in which each package has its place.
"""
import ast
import re
from collections.abc import Iterator
from pathlib import Path

import pytest

PRESSROOM = Path(__file__).parents[1] / "pressroom"
PAGE = (PRESSROOM.parents[1] / "docs" / "ARCHITECTURE.md").read_text(encoding="utf-8")
TABLE = PAGE[PAGE.index("## The companions") : PAGE.index("## Definitions")]
# The packages of the table's first column.
LAYERS = [
    name
    for line in TABLE.splitlines()
    if line.startswith("| `")
    for name in re.findall(r"`([a-z]+)/`", line.split("|")[1])
]
LEVEL = {package: level for level, package in enumerate(LAYERS)}
# front.py and table.py are above all packages.
TOP = len(LAYERS)


def imported(path: Path) -> Iterator[str]:
    """Yields the packages and modules of pressroom that a module imports."""
    for node in ast.walk(ast.parse(path.read_text(encoding="utf-8"))):
        if isinstance(node, ast.Import):
            names = [item.name for item in node.names]
        elif isinstance(node, ast.ImportFrom):
            assert node.level == 0, f"{path}:{node.lineno}: a relative import"
            names = [f"{node.module}.{item.name}" for item in node.names]
        else:
            continue
        for name in names:
            first, _, rest = name.partition(".")
            if first == "pressroom" and rest != "__version__":
                yield rest.partition(".")[0]


def test_each_package_has_its_place() -> None:
    packages = sorted(path.parent.name for path in PRESSROOM.glob("*/__init__.py"))
    assert sorted(LAYERS) == packages


@pytest.mark.parametrize("package", LEVEL)
def test_no_package_imports_a_higher_one(package: str) -> None:
    wrong = [
        f"{path.relative_to(PRESSROOM)} imports {name}"
        for path in sorted((PRESSROOM / package).rglob("*.py"))
        for name in imported(path)
        if name != package and LEVEL.get(name, TOP) >= LEVEL[package]
    ]
    assert wrong == []
