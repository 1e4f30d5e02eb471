#!/usr/bin/env python3
"""The same as `pressroom proof`."""
import sys

from pressroom.front import main

if __name__ == "__main__":
    sys.exit(main(["proof", *sys.argv[1:]]))
