#!/bin/sh
# Puts `rollback`, `rollback_graph` and the Python commands, each with its man page, into PREFIX (~/.local): the programs that the gate left,
# if they are newer than the crates' sources, else those of release/.
#
#     sh tools/install.sh [PREFIX]
#     sh tools/install.sh --build [PREFIX]          proves and builds the programs first, which takes an hour or two and needs `rt`
#     sh tools/install.sh --uninstall [PREFIX]
set -eu
top=$(cd "$(dirname "$0")/.." && pwd)
act=install
case "${1:-}" in
--build | --uninstall) act=${1#--} && shift ;;
-*) sed -n 's/^# \{0,1\}//p' "$0" | sed -n 1,7p >&2 && exit 2 ;;
esac
prefix=${1:-$HOME/.local}
library=$prefix/lib/rollback
pages=$prefix/share/man/man1
programs="rollback rollback_graph"
commands="serve copy look lint shell run"

say() {
    echo "install: $*"
}

remove() {
    for name in $programs; do rm -f "$prefix/bin/$name" "$pages/$name.1"; done
    for name in $commands; do rm -f "$prefix/bin/rollback-$name" "$pages/rollback-$name.1"; done
    rm -rf "$library"
}

build() {
    command -v rt >/dev/null || { say "--build needs the toolchain's command rt on the path" >&2 && exit 1; }
    for name in rollback_program rollback_graph; do
        say "proving and building $name"
        (cd "$top/crates/$name" && rt run -- --version)
    done
}

# Whether the gate left this program, and no source is newer.
is_built() {
    [ -x "$top/crates/$1/out/$1" ] && [ -z "$(find "$top"/crates/*/src "$top/crates.txt" -newer "$top/crates/$1/out/$1" | head -n 1)" ]
}

put_programs() {
    mkdir -p "$prefix/bin"
    if is_built rollback_program && is_built rollback_graph; then
        cp "$top/crates/rollback_program/out/rollback_program" "$prefix/bin/rollback"
        cp "$top/crates/rollback_graph/out/rollback_graph" "$prefix/bin/rollback_graph"
        say "the programs are those that the gate left here"
    else
        [ "$(uname -sm)" = "Linux x86_64" ] || { say "release/ has programs for x86-64 Linux alone" >&2 && exit 1; }
        python3 "$top/tools/release.py" unpack "$prefix/bin"
        say "the programs are those of release/"
    fi
    "$prefix/bin/rollback" --version >/dev/null || { say "the program doesn't run here: release/manifest.json names the C library that it needs" >&2 && exit 1; }
}

# A command in Python, which finds its package and the programs where they were put.
put_command() {
    module=$1
    [ "$1" != run ] || module=runner
    cat >"$prefix/bin/rollback-$1" <<COMMAND
#!/bin/sh
PYTHONPATH="$library\${PYTHONPATH:+:\$PYTHONPATH}" PATH="\$PATH:$prefix/bin" exec python3 -m rollback_client.$module "\$@"
COMMAND
    chmod 755 "$prefix/bin/rollback-$1"
}

# A man page, of what `--help` says.
put_page() {
    mkdir -p "$pages"
    {
        printf '.TH "%s" 1\n.SH NAME\n%s \\- %s\n.SH DESCRIPTION\n.nf\n' "$1" "$1" "$2"
        "$prefix/bin/$1" --help | sed 's/\\/\\\\/g; s/^\([.'"'"']\)/\\\&\1/'
    } >"$pages/$1.1"
}

if [ "$act" = uninstall ]; then
    remove
    say "removed from $prefix"
    exit 0
fi
python3 -c 'import sys; sys.exit(sys.version_info < (3, 9))' || { say "Python 3.9 or newer is needed" >&2 && exit 1; }
[ "$act" = install ] || build
put_programs
mkdir -p "$library"
rm -rf "$library/rollback_client"
cp -r "$top/clients/python/rollback_client" "$library/"
for name in $commands; do put_command "$name"; done
put_page rollback "runs workflows, and takes back any step with exactly those that depend on it"
put_page rollback_graph "says what depends on what in a journal, and draws it"
put_page rollback-serve "serves the lines of one book to several callers"
put_page rollback-copy "copies a running book"
put_page rollback-look "asks a copy of a running book what depends on what"
put_page rollback-lint "finds all faults of a definition"
put_page rollback-shell "a prompt for a book"
put_page rollback-run "takes the steps of a book by turns and clocks"
say "$programs and rollback-{$(echo $commands | tr ' ' ',')} are in $prefix/bin"
case ":$PATH:" in
*":$prefix/bin:"*) ;;
*) say "put it on the path: export PATH=\"$prefix/bin:\$PATH\"" ;;
esac
