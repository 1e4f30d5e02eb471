#!/usr/bin/env python3
"""The same as `pressroom check`."""
import sys

from pressroom.front import main

if __name__ == "__main__":
    sys.exit(main(["check", *sys.argv[1:]]))
