#!/bin/sh
# Looks whether what the documents name is there. tools/docs.py says what exactly.
#
#     sh tools/docs.sh [--program PATH]
exec python3 "$(dirname "$0")/docs.py" "$@"
