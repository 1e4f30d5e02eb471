"""The house file, and the tiles that it may name."""
