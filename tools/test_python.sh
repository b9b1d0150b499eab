#!/usr/bin/env bash
# The Python package, the command line and the installation, on what stands proved: `tools/prove.py --here` after the
# gate's proofs. The calls, and the rules behind `explain`, are compared with the answers of the independent Rust
# implementation. First, that the examples' built graphs are what is built, which needs the library.
set -euo pipefail
cd "$(dirname "$0")/.."

room=$(mktemp -d)
trap 'rm -rf "$room"' EXIT
tools/prove.py --here
examples/make.sh --built --check
cargo build --quiet --release --offline --example answers --manifest-path bindings/rust/Cargo.toml
bindings/rust/target/release/examples/answers --limits 3000 >"$room/answers"
export LAGUIPY_ANSWERS=$room/answers
exec python3 -B -m unittest discover -s bindings/python/tests
