#!/bin/sh
# Says which crates' files aren't laid out as `rt fmt` lays them out, without which the gate refuses a crate, and which files of the
# client for Python aren't laid out as `black` does it, if that is there. It changes nothing.
#
#     sh tools/layout.sh
set -eu
top=$(cd "$(dirname "$0")/.." && pwd)
room=$(mktemp -d)
trap 'rm -rf "$room"' EXIT
(cd "$top" && tar cf - --exclude=out HANDLES crates.txt crates) | tar xf - -C "$room"
git -C "$room" init -q
found=0
for folder in "$room"/crates/*/; do
    # (rt tells of edits too)
    said=$(cd "$folder" && rt fmt 2>&1 </dev/null | grep -v '^rt: note:' || true)
    [ -z "$said" ] || { echo "layout: $(basename "$folder"): $said"; found=1; }
done
[ "$found" = 0 ] && echo "layout: all crates are laid out"
if command -v black >/dev/null; then
    if said=$(cd "$top" && black --config clients/python/pyproject.toml --check clients/python examples/python 2>&1); then
        echo "layout: the client for Python is laid out"
    else
        echo "$said" | sed -n 's/^would reformat /layout: black would lay out /p'
        found=1
    fi
else
    echo "layout: black isn't here, so the client for Python isn't looked at"
fi
exit "$found"
