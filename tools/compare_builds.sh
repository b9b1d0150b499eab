#!/usr/bin/env bash
# Compares what two libraries build, byte for byte: the one in build/lib, which `make` puts there, and an earlier one,
# which is that of a commit that the toolchain at hand proves, built in a copy, or stands in a folder.
#
#   tools/compare_builds.sh COMMIT|FOLDER [COUNT]
#
# COUNT random models, 6,000 unless it is said, three slices each, and every model that fills the nodes. The exit status
# is 0 if all is the same, 1 if something differs or cannot be built, 2 for bad usage.
set -euo pipefail
cd "$(dirname "$0")/.."
usage() {
  echo "usage: tools/compare_builds.sh COMMIT|FOLDER [COUNT]" >&2
  exit 2
}
if [ $# -lt 1 ] || [ $# -gt 2 ]; then usage; fi
count=${2:-6000}
[[ $count =~ ^[1-9][0-9]*$ ]] || usage

room=$(mktemp -d)
trap 'rm -rf "$room"' EXIT
if [ -d "$1" ]; then
  earlier=$(cd "$1" && pwd)
elif git rev-parse --verify --quiet "$1^{commit}" >"$room/commit"; then
  echo "proving and building the library of $(git rev-parse --short "$1"): many minutes"
  git clone --quiet --no-checkout . "$room/copy"
  git -C "$room/copy" checkout --quiet "$(cat "$room/commit")"
  if ! (cd "$room/copy/crates/laguipy_c" && rt lib) >"$room/log" 2>&1; then
    tail -n 20 "$room/log" >&2
    exit 1
  fi
  earlier=$room/copy/crates/laguipy_c/out
else
  echo "tools/compare_builds.sh: no commit and no folder: $1" >&2
  usage
fi

# Each library with a program of its own, so that neither is linked for the other.
built() { # NAME FOLDER
  if [ ! -f "$2/liblaguipy_c.a" ] && [ ! -f "$2/liblaguipy.a" ]; then
    echo "tools/compare_builds.sh: no liblaguipy_c.a or liblaguipy.a in $2" >&2
    exit 1
  fi
  LAGUIPY_LIB_DIR=$2 cargo run --release --offline --quiet --target-dir "$room/$1" \
    --manifest-path bindings/rust/Cargo.toml --example built -- --filling "$count" >"$room/$1.bytes"
}
built earlier "$earlier"
built now "$PWD/build/lib"
if ! cmp "$room/earlier.bytes" "$room/now.bytes"; then
  echo "the libraries build different bytes" >&2
  exit 1
fi
calls=$(grep -ac ' rounds, room for ' "$room/now.bytes")
echo "$count random models and those that fill the nodes, $calls calls, $(wc -c <"$room/now.bytes") bytes: all the same"
