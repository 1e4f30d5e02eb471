#!/usr/bin/env python3
"""pressroom: the programs around plateroom, under one name."""
import sys

from pressroom.front import main

if __name__ == "__main__":
    sys.exit(main())
