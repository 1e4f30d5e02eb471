"""Approves a page as you saw it: this arrival, converted by these settings. Another file needs another approval, even
where bytes of before come back.

status: 0 it is approved; 1 it isn't what you saw, or there is no such page; 2 the arguments are wrong; 3 the service is
down

example: pressroom approve /var/spool/pressroom MON A07
"""

from pressroom.base.command_line import Parser
from pressroom.night import by_hand


def parser() -> Parser:
    """Returns the arguments of the command."""
    found = by_hand.parser_of(__doc__, "approve", "edition", "page")
    found.add_argument(
        "--arrival", metavar="N", type=int, help="the arrival that you saw (default: that of now)"
    )
    found.add_argument("--word", metavar="TEXT", default="", help="a word for the journal and the board")
    return found


def main() -> int:
    """Runs the command. Returns its status."""
    words = parser().parse_args()
    page = by_hand.seen("approve", words)
    if page is None:
        return by_hand.REFUSED
    if not page["render"]:
        text = f"{words.page} has no page yet that intake accepted"
        return by_hand.told("approve", {"status": by_hand.REFUSED, "text": text}, words.json)
    arrival = page["arrival"] if words.arrival is None else words.arrival
    seen = {"arrival": arrival, "render": page["render"]}
    return by_hand.give("approve", words, page=words.page, word=words.word, **seen)
