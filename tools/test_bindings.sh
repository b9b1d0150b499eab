#!/usr/bin/env bash
# The static library as its users link it: proves and builds it, runs the tests of the Rust binding against the plain
# Rust calls, packages the crate, compiles and runs the Rust and the C examples and the test of the header; then tries
# the scripts that keep the version and the crate's copies of an example. Quiet unless something fails.
set -euo pipefail
cd "$(dirname "$0")/.."

room=$(mktemp -d)
trap 'rm -rf "$room"' EXIT
out=$room/out   # what the last command printed
said=$room/said # what it said on standard error
# A pipe that nobody reads: opened for both, so that it can be opened to write, and then closed for reading.
mkfifo "$room/pipe"
exec 3<>"$room/pipe"
exec 4>"$room/pipe" 3<&-

fail() { # WORDS
  for file in "$out" "$said"; do tail -c 20000 "$file" >&2; done
  echo "failed: $*" >&2
  exit 1
}

# Runs a command that has to exit with this status.
ends() { # STATUS COMMAND...
  local wanted=$1 status=0
  shift
  "$@" >"$out" 2>"$said" || status=$?
  [ "$status" = "$wanted" ] || fail "$* (it exits with $status, not $wanted)"
}
to_full() { "$@" >/dev/full; }
to_nobody() { env --default-signal=PIPE "$@" >&4; }

# What the last command printed, all of it; and what it said on standard error, or that it said nothing.
prints() { [ "$(cat "$out")" = "$1" ] || fail "this is not what it should print: $1"; }
says() { grep -qF -- "$1" "$said" || fail "this is not among what it says: $1"; }
says_not() { ! grep -qF -- "$1" "$said" || fail "this should not be among what it says: $1"; }
says_nothing() { [ ! -s "$said" ] || fail "it should say nothing"; }

# What a program prints for each example is its expected.txt.
prints_expected() { # PROGRAM
  local example status
  for example in examples/*/expected.txt; do
    example=${example%/expected.txt}
    if grep -q ^accepted "$example/expected.txt"; then status=0; else status=1; fi
    ends "$status" "$1" "$example/model.fold" "$example/graph.fold"
    prints "$(cat "$example/expected.txt")"
    says_nothing
  done
}

# How a program ends where it gets as far as to print something, but that cannot be written.
loses_output() { # PROGRAM NAME WORDS...
  local program=$1 name=$2
  shift 2
  ends 3 to_full "$program" "$@"
  says "$name: cannot write to standard output: No space left on device"
  ends 141 to_nobody "$program" "$@"
}

# How a program ends where it is not the graph that decides.
ends_otherwise() { # PROGRAM NAME
  local model=examples/pedal/model.fold graph=examples/pedal/graph.fold none=examples/none/model.fold line words
  ends 0 "$1" --version
  prints "$2 $(cat VERSION)"
  for line in "" "$model" "--versio" "$model $graph $graph" "--version $model $graph"; do
    read -r -a words <<<"$line"
    ends 2 "$1" "${words[@]}"
    prints ""
    says "usage: $2 MODEL GRAPH"
  done
  ends 1 "$1" "$none" "$graph"
  prints "no file"
  says "$2: cannot read $none: No such file or directory"
  ends 1 "$1" "$model" examples
  prints "no file"
  says "$2: cannot read examples: Is a directory"
  loses_output "$1" "$2" --version
  loses_output "$1" "$2" "$none" "$graph"
  loses_output "$1" "$2" examples/refused_25/model.fold examples/refused_25/graph.fold
  loses_output "$1" "$2" "$model" "$graph"
  says_nothing
}

# The plain calls' answers, for tests of other bindings: a JSON object per line.
writes_answers() { # PROGRAM
  ends 0 "$1" 50
  [ "$(wc -l <"$out")" -eq 50 ] || fail "it should write 50 lines"
  python3 -c 'import json, sys; [json.loads(line)["answers"] for line in sys.stdin]' <"$out" || fail "it should be JSON"
  ends 0 "$1" --limits 0
  grep -q '"seed":null,"name":"4,096 nodes"' "$out" || fail "inputs at the limits are missing"
  ends 2 "$1" fifty
  says "usage: answers"
  loses_output "$1" answers 50
  says_nothing
}

# What the library builds, for a comparison with another: a line for each call, and the slice.
writes_builds() { # PROGRAM
  ends 0 "$1" 50
  [ "$(grep -ac ' rounds, room for ' "$out")" -eq 150 ] || fail "it should write 150 calls"
  grep -aq ': Ok(' "$out" || fail "it should build graphs"
  ends 2 "$1" fifty
  says "usage: built"
  loses_output "$1" built 50
  says_nothing
}

# Cargo on a crate whose library is in this folder, apart from what is built otherwise.
cargo_with() { # FOLDER CRATE COMMAND WORDS...
  local folder=$1 crate=$2/Cargo.toml command=$3
  shift 3
  LAGUIPY_LIB_DIR=$folder cargo "$command" --offline --target-dir "$room/target" --manifest-path "$crate" "$@"
}

# Without the library the Rust crate says what to do.
needs_library() {
  mkdir "$room/empty"
  ends 101 cargo_with "$room/empty" bindings/rust check
  says "no liblaguipy_c.a or liblaguipy.a in $room/empty"
  says "in Laguipy's repository run: make"
  says "set LAGUIPY_LIB_DIR"
  says_not panicked
}

# As it is packaged, and with the library as it is installed, the Rust crate has all that it needs.
packages() {
  local packaged
  packaged=$room/target/package/laguipy-$(cat VERSION)
  mkdir "$room/lib"
  cp build/lib/liblaguipy.a "$room/lib/"
  ends 0 cargo_with "$room/lib" bindings/rust package --allow-dirty
  ends 0 cargo_with "$room/lib" "$packaged" test --doc
  grep -q '^test result: ok. 3 passed' "$out" || fail "the examples of the crate's docs should be tested"
  ends 0 cargo_with "$room/lib" "$packaged" run --example check -- "$packaged"/examples/pedal/{model,graph}.fold
  prints "$(cat examples/pedal/expected.txt)"
}

# In a copy of what they look at, the scripts name each file that is not as it should be.
name_files() {
  local copy=$room/copy file
  mkdir -p "$copy/bindings/rust"
  cp -R VERSION examples include tools "$copy"
  cp -R bindings/python "$copy/bindings"
  cp -R bindings/rust/Cargo.toml bindings/rust/Cargo.lock bindings/rust/examples "$copy/bindings/rust"
  echo 10.20.30 >"$copy/VERSION"
  ends 1 "$copy/tools/version.sh" --check
  for file in include/laguipy.h bindings/rust/Cargo.toml bindings/rust/Cargo.lock; do
    says "$file says version $(cat VERSION), and VERSION says 10.20.30"
  done
  ends 0 "$copy/tools/version.sh"
  ends 0 "$copy/tools/version.sh" --check
  ends 2 "$copy/tools/version.sh" --chek

  printf x >>"$copy/bindings/rust/examples/pedal/model.fold"
  rm "$copy/bindings/rust/examples/pedal/graph.fold"
  ends 1 "$copy/examples/make.sh" --check
  prints "$(printf 'not up to date: bindings/rust/examples/pedal/%s.fold\n' model graph)"
}

# Into build/lib, where the crate looks for it unless it is told.
ends 0 tools/prove.py --here
ends 0 cargo test --release --offline --manifest-path bindings/rust/Cargo.toml
needs_library
packages
ends 0 cargo build --release --offline --examples --manifest-path bindings/rust/Cargo.toml
programs=bindings/rust/target/release/examples
prints_expected "$programs/check"
ends_otherwise "$programs/check" check
writes_answers "$programs/answers"
writes_builds "$programs/built"

ends 0 cc -std=c99 -O2 -Wall -Wextra -Werror -Iinclude examples/embed/embed.c build/lib/liblaguipy.a -o build/embed
for standard in c99 c++11; do
  ends 0 cc -x "${standard%%[0-9]*}" -std="$standard" -O2 -Wall -Wextra -Werror -Iinclude tools/test_header.c -x none \
    -Wl,-z,lazy build/lib/liblaguipy.a -o build/test_header
  ends 0 build/test_header examples/pedal/model.fold examples/pedal/graph.fold
  says_nothing
done
prints_expected build/embed
ends_otherwise build/embed embed

name_files
