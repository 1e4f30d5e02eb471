"""The command `pressroom night`."""
from pressroom.night.serve import main, parser

__all__ = ["main", "parser"]
