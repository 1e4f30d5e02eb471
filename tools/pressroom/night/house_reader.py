"""The house file as the night uses it: the house, and how a job reaches each site. Faults are one line."""
from collections.abc import Iterator, Mapping
from contextlib import contextmanager
from dataclasses import asdict, dataclass
from typing import Any

from pressroom.house.forms import TARGET, wrong
from pressroom.house.house import House, HouseFault, house_of as house_of_keys, read_text
from pressroom.house.house_keys import Keys
from pressroom.house.records import Night
from pressroom.night.methods import described


class Fault(Exception):
    """A house file, or an edition's own, can't be used; the text names the file, the line and the key."""


@dataclass(frozen=True)
class NightHouse:
    """A house file that passed all tests, its text, and the way to each site that is delivered to, as a job needs it.
    The edition of `house` may have {date}."""

    house: House
    text: str
    targets: Mapping[str, Mapping[str, Any]]

    @property
    def night(self) -> Night:
        """What the house says of the night's service."""
        return self.house.night


@contextmanager
def faults_in_a_line() -> Iterator[None]:
    """Raises Fault for the faults of a file."""
    try:
        yield
    except HouseFault as error:
        raise Fault("; ".join(error.lines)) from None


def house_of(text: str, file: str = "house.toml") -> NightHouse:
    """Reads a house file from its text. Raises Fault; `file` is its path, from which a profile is found."""
    with faults_in_a_line():
        keys = read_text(text, file)
        house = house_of_keys(keys)
        return NightHouse(house, text, ways(house, keys))


def page_house(text: str, file: str, profile: str | None) -> House:
    """Reads a house file as intake of a page does, with its profile at another path. Raises Fault."""
    with faults_in_a_line():
        return house_of_keys(read_text(text, file), profile)


def ways(house: House, keys: Keys) -> dict[str, dict[str, Any]]:
    """Returns what a job needs to reach each site. Raises HouseFault where no method takes a target."""
    found = {site: described(target, asdict(house.delivery)) for site, target in house.targets.items()}
    for site, way in found.items():
        if way is None:
            keys.faults.add(("delivery", "sites", site), str(wrong(house.targets[site], TARGET.words)))
    keys.faults.end()
    return {site: way for site, way in found.items() if way is not None}
