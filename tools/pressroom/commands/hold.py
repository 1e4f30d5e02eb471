"""Holds a page: whatever comes for it, nothing with it leaves until it is released.

The answer says which sites had the page already, for which the hold is in time, and where it may be out.

status: 0 it is held; 1 there is no such edition or page; 2 the arguments are wrong; 3 the service is down

example: pressroom hold /var/spool/pressroom MON A07 --word "match runs late"
"""

from pressroom.base.command_line import Parser
from pressroom.night import by_hand


def parser() -> Parser:
    """Returns the arguments of the command."""
    found = by_hand.parser_of(__doc__, "hold", "edition", "page")
    found.add_argument("--word", metavar="TEXT", default="", help="why, for the journal and the board")
    return found


def main() -> int:
    """Runs the command. Returns its status."""
    words = parser().parse_args()
    return by_hand.give("hold", words, page=words.page, word=words.word)
