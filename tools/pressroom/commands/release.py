"""Releases a page that was held, on the arrival that you saw. If another file came since, nothing is released.

status: 0 it is released; 1 it isn't what you saw, or there is no such page; 2 the arguments are wrong; 3 the service is
down

example: pressroom release /var/spool/pressroom MON A07 --arrival 12
"""

from pressroom.base.command_line import Parser
from pressroom.night import by_hand


def parser() -> Parser:
    """Returns the arguments of the command."""
    found = by_hand.parser_of(__doc__, "release", "edition", "page")
    found.add_argument(
        "--arrival", metavar="N", type=int, help="the newest arrival that you saw (default: that of now)"
    )
    return found


def main() -> int:
    """Runs the command. Returns its status."""
    words = parser().parse_args()
    arrival = words.arrival
    if arrival is None:
        page = by_hand.seen("release", words)
        if page is None:
            return by_hand.REFUSED
        arrival = page["newest"] or 0
    return by_hand.give("release", words, page=words.page, arrival=arrival)
