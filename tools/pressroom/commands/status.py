"""Shows the night: pages by zone, pairs by site, what is wrong, and what the next step is.

With EDITION it shows one edition, with PAIR the history of a pair. With --follow it prints the events as they come,
each with its time, until it is stopped. --json has the shape pressroom.status/1 of docs/FORMATS.md.

status: 0 shown; 1 there is no such edition or pair; 2 the arguments are wrong; 3 the service is down

example: pressroom status /var/spool/pressroom MON
"""
import argparse
import json

from pressroom.base.command_line import Parser
from pressroom.night import by_hand, client, status_text


def parser() -> Parser:
    """Returns the arguments of the command."""
    found = by_hand.parser_of(__doc__, "status")
    found.add_argument("edition", metavar="EDITION", nargs="?", help="one edition (default: all)")
    found.add_argument("pair", metavar="PAIR", nargs="?", help="a pair, such as A-002")
    found.add_argument("--follow", action="store_true", help="print the events as they come")
    found.add_argument(
        "--since", metavar="SEQ", type=int, help="with --follow: from this event on (default: from now)"
    )
    return found


def main() -> int:
    """Runs the command. Returns its status."""
    words = parser().parse_args()
    if words.follow:
        return follow(words)
    try:
        state = by_hand.ask(words.spool, {"ask": "status", "edition": words.edition, "pair": words.pair})
    except client.Down as down:
        return by_hand.told("status", {"status": by_hand.DOWN, "text": str(down)}, words.json)
    if "schema" not in state:
        return by_hand.told("status", state, words.json)
    if words.json:
        print(json.dumps(state, ensure_ascii=False, indent=1))
    else:
        print(status_text.pair(state) if words.pair else status_text.night(state))
    return by_hand.DONE


def follow(words: argparse.Namespace) -> int:
    """Prints events until the service ends."""
    try:
        since = words.since
        if since is None:
            since = client.status(words.spool, words.edition)["service"]["journal"]["entries"]
        for event in client.events(words.spool, since, words.edition):
            print(
                json.dumps(event, ensure_ascii=False) if words.json else status_text.event(event), flush=True
            )
    except client.Down as down:
        return by_hand.told("status", {"status": by_hand.DOWN, "text": str(down)}, words.json)
    except KeyboardInterrupt:
        return by_hand.DONE
    return by_hand.DOWN
