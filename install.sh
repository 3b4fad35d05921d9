#!/usr/bin/env bash
# Puts the built program, its man page and the completion of its words for bash in place.
#
# usage: install.sh [PREFIX]
#
# PREFIX is /usr/local unless said. `rt run` in crates/jass builds the program first.
set -euo pipefail
here=$(cd "$(dirname "$0")" && pwd)

usage() {
    sed -n '/^# usage/,/^set /{/^set /d;s/^# \{0,1\}//;p}' "$here/install.sh"
}

case "${1-}" in
--help | -h)
    usage
    exit 0
    ;;
-*)
    usage >&2
    exit 2
    ;;
esac
if [ $# -gt 1 ]; then
    usage >&2
    exit 2
fi
prefix=${1:-/usr/local}
program=$here/crates/jass/out/jass
if [ ! -x "$program" ]; then
    echo "install.sh: $program isn't there: run 'rt run' in crates/jass first" >&2
    exit 1
fi

put() {
    install -D -m "$1" "$2" "$prefix/$3"
    echo "$prefix/$3"
}

put 755 "$program" bin/jass
put 644 "$here/docs/jass.1" share/man/man1/jass.1
put 644 "$here/docs/jass.bash" share/bash-completion/completions/jass
case ":$PATH:" in
*":$prefix/bin:"*) ;;
*) echo "$prefix/bin isn't on the PATH" ;;
esac
