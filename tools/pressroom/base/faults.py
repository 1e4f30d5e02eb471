"""What ends a command with a line for its user."""


class Fault(Exception):
    """What is wrong with a user's files, arguments or machine: a line for the user, and the command's status."""

    status = 2
