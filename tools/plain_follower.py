#!/usr/bin/env python3
"""The plain book as a follower, which stands in for `rollback_graph` where only these are asked of it.

usage: plain_follower.py [FILE] --serve
       plain_follower.py --viewer script|style
       plain_follower.py FILE --html [--from STEP]
"""
import os
import sys

sys.dont_write_bytecode = True
sys.path.insert(0, os.path.dirname(os.path.realpath(__file__)))
from plain_book.following import main  # noqa: E402: beside this file

if __name__ == "__main__":
    sys.exit(main(sys.argv[1:]))
