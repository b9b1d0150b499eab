#!/usr/bin/env bash
# Makes every model.fold, with its model.names, and graph.fold of examples/ from the text, with tools/fold.py, and the
# Rust crate's copies; and, by the proved library, the graph that is built of each model, built.fold, with its report.
#   examples/make.sh           writes what comes of the text
#   examples/make.sh --built   writes what is built, by ./laguipy, which proves the library first if it has to
# With --check it writes none: it says which are not up to date, and exits with 1 if any is not.
set -euo pipefail
cd "$(dirname "$0")/.."

# Each example and its model; the graph is the .graph file in the example's own directory.
examples='
pedal                    pedal/pedal.model
scan_loop                scan_loop/scan.model
mixer                    mixer/mixer.model
explored_twice           pedal/pedal.model
refused_19               pedal/pedal.model
refused_20               pedal/pedal.model
refused_21               pedal/pedal.model
refused_22               pedal/pedal.model
refused_23               pedal/pedal.model
refused_24               pedal/pedal.model
refused_25               pedal/pedal.model
dead_converter           dead_converter/converter.model
dead_converter_explored  dead_converter/converter.model
'

usage() {
  echo "usage: examples/make.sh [--built] [--check]" >&2
  exit 2
}

built=
check=
for word in "$@"; do
  case "$word" in
    --built) built=yes ;;
    --check) check=yes ;;
    *) usage ;;
  esac
done

made=$(mktemp -d)
trap 'rm -rf "$made"' EXIT
old=0

# Puts a file in its place; with --check only compares it with what is there.
put() { # MADE FILE
  ! cmp -s "$1" "$2" || return 0
  if [ -n "$check" ]; then
    echo "not up to date: $2"
    old=1
  else
    mkdir -p "$(dirname "$2")"
    cp "$1" "$2"
    echo "written: $2"
  fi
}

from_text() { # NAME MODEL
  tools/fold.py model "examples/$2" "$made/model.fold" >"$made/log"
  tools/fold.py graph "examples/$1"/*.graph "$made/model.fold" "$made/graph.fold" >"$made/log"
  for file in model.fold model.names graph.fold; do
    put "$made/$file" "examples/$1/$file"
  done
}

# Of each model once: in the directory that has its text.
from_library() { # NAME MODEL
  [ "$1" = "${2%/*}" ] || return 0
  ./laguipy build -q "examples/$1" -o "$made/built.fold" >"$made/log"
  ./laguipy check -q "examples/$1/model.fold" "$made/built.fold" >"$made/built.txt"
  for file in built.fold built.txt; do
    put "$made/$file" "examples/$1/$file"
  done
}

while read -r name model; do
  [ -n "$name" ] || continue
  if [ -n "$built" ]; then from_library "$name" "$model"; else from_text "$name" "$model"; fi
done <<<"$examples"

# The Rust crate's documentation reads the pedal example, and the crate may be packaged alone.
if [ -z "$built" ]; then
  put examples/pedal/model.fold bindings/rust/examples/pedal/model.fold
  put examples/pedal/graph.fold bindings/rust/examples/pedal/graph.fold
fi
exit "$old"
