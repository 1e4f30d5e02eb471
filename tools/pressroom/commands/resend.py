"""Sends plates to a site again, beside the version that it has: all of its pairs, one pair, or one plate.

They come in a folder VERSION.rN with a READY that names the plates and the reason.

status: 0 they are under way; 1 the site doesn't have them yet, or there is no such site; 2 the arguments are wrong;
3 the service is down

example: pressroom resend /var/spool/pressroom MON OSLO A-002 K --reason torn
"""

from pressroom.base.command_line import Parser
from pressroom.night import by_hand


def parser() -> Parser:
    """Returns the arguments of the command."""
    found = by_hand.parser_of(__doc__, "resend", "edition", "site")
    found.add_argument("pair", metavar="PAIR", nargs="?", help="a pair, such as A-002 (default: all)")
    found.add_argument(
        "ink", metavar="INK", nargs="?", choices="CMYKS", help="one plate of the pair (default: all)"
    )
    found.add_argument("--reason", metavar="TEXT", required=True, help="why, for the site and the journal")
    return found


def main() -> int:
    """Runs the command. Returns its status."""
    words = parser().parse_args()
    which = {"site": words.site, "pair": words.pair, "ink": words.ink}
    return by_hand.give("resend", words, **which, reason=words.reason)
