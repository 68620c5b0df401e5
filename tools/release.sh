#!/bin/sh
# Makes release/ anew, of the programs that the gate left: tools/release.py says how. Done at a version, and not at each landing.
#
#     sh tools/release.sh
exec python3 "$(dirname "$0")/release.py" make
