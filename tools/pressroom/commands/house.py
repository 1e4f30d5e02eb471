"""Applies the house file in force to an edition that is under way: what is new or differs is made, and nothing else.

An edition keeps the house by which it began. Without --apply the command says only what would be made.

status: 0 done; 1 it can't be applied, with the reason; 2 the arguments are wrong; 3 the service is down

example: pressroom house /var/spool/pressroom --apply MON
"""

from pressroom.base.command_line import Parser
from pressroom.night import by_hand


def parser() -> Parser:
    """Returns the arguments of the command."""
    found = by_hand.parser_of(__doc__, "house")
    some = found.add_mutually_exclusive_group(required=True)
    some.add_argument("--apply", metavar="EDITION", help="apply it to this edition")
    some.add_argument("--show", metavar="EDITION", help="say what would be made of this edition")
    return found


def main() -> int:
    """Runs the command. Returns its status."""
    words = parser().parse_args()
    words.edition = words.apply or words.show
    return by_hand.give("house", words, dry=words.apply is None)
