#!/bin/sh
# VERSION at the top of the repository is the one file that has the version; the files at the end of this script say it
# too.
#   tools/version.sh           writes it into each of them
#   tools/version.sh --check   writes nothing: names each that says another version, and exits with 1 if any does
set -eu
cd "$(dirname "$0")/.."

usage() {
    echo "usage: tools/version.sh [--check]" >&2
    exit 2
}

[ $# -le 1 ] || usage
case "${1-}" in
    "") check= ;;
    --check) check=yes ;;
    *) usage ;;
esac
version=$(cat VERSION)
if ! printf '%s\n' "$version" | grep -Eqx '[0-9]+\.[0-9]+\.[0-9]+' || [ "$(wc -l <VERSION)" -ne 1 ]; then
    echo "VERSION is not one line of three numbers, such as 1.2.3" >&2
    exit 1
fi
made=$(mktemp)
trap 'rm -f "$made"' EXIT
wrong=0

# The version that a file says, in quotes after these words; nothing if no line has them.
said() { # FILE WORDS
    sed -n "s/^$2 \"\(.*\)\"\$/\1/p" "$1"
}

keep() { # FILE WORDS
    if [ -z "$check" ] && [ "$(said "$1" "$2")" != "$version" ]; then
        sed "s/^\($2\) \".*\"\$/\1 \"$version\"/" "$1" >"$made"
        cat "$made" >"$1"
        echo "written: $1"
    fi
    found=$(said "$1" "$2")
    [ "$found" != "$version" ] || return 0
    wrong=1
    if [ -n "$found" ]; then
        echo "$1 says version $found, and VERSION says $version: tools/version.sh writes it there" >&2
    else
        echo "$1 says no version: give it the line $2 \"$version\"" >&2
    fi
}

keep include/laguipy.h '#define LAGUIPY_VERSION'
keep bindings/rust/Cargo.toml 'version ='
keep bindings/rust/Cargo.lock 'version ='
exit "$wrong"
