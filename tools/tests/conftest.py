"""Tests of pressroom that need no built program: `pytest` in the repository's folder runs them."""
import os
import sys

sys.dont_write_bytecode = True
sys.path.insert(0, os.path.join(os.path.dirname(os.path.abspath(__file__)), ".."))
