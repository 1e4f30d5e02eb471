"""Shows the night in a browser: editions, pages, pairs at sites, what is wrong, and what must leave next.

It reads what the service publishes, never the journal, and listens on 127.0.0.1 or at a UNIX socket alone: users come by
a reverse proxy such as nginx, which says who they are in the header X-Forwarded-User. With --actions these users approve,
reject, hold, release, resend and cancel, each in his own name. Needs python3-flask and python3-waitress.

status: 0 it was ended; 2 the arguments are wrong, or a library isn't installed

example: pressroom board /var/spool/pressroom
"""
from pressroom.base.command_line import Parser
from pressroom.board import serve


def parser() -> Parser:
    """Returns the arguments of the command."""
    found = Parser("board", __doc__)
    serve.add_arguments(found)
    return found


def main() -> int:
    """Runs the board. Returns its status."""
    return serve.run(parser().parse_args())
