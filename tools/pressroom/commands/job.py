"""The command `pressroom job`, which the units of the night's jobs run."""
from pressroom.night.job import main

__all__ = ["main"]
