"""The command `pressroom intake`."""
from pressroom.intake.intake import main, parser

__all__ = ["main", "parser"]
