"""Cancels an edition: nothing more of it is made or leaves. What sites have stays there.

status: 0 it is cancelled; 1 there is no such edition; 2 the arguments are wrong; 3 the service is down

example: pressroom cancel /var/spool/pressroom MON
"""

from pressroom.base.command_line import Parser
from pressroom.night import by_hand


def parser() -> Parser:
    """Returns the arguments of the command."""
    return by_hand.parser_of(__doc__, "cancel", "edition")


def main() -> int:
    """Runs the command. Returns its status."""
    return by_hand.give("cancel", parser().parse_args())
