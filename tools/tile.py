#!/usr/bin/env python3
"""The same as `pressroom tile`."""
import sys

from pressroom.front import main

if __name__ == "__main__":
    sys.exit(main(["tile", *sys.argv[1:]]))
