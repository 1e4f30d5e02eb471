#!/usr/bin/env python3
"""The same as `pressroom parts`."""
import sys

from pressroom.front import main

if __name__ == "__main__":
    sys.exit(main(["parts", *sys.argv[1:]]))
