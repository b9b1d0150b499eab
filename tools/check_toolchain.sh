#!/bin/sh
# The toolchain on the PATH must be the one that TOOLCHAIN names: what is claimed is claimed of proofs that it has
# checked.
set -eu
cd "$(dirname "$0")/.."
pinned=$(cat TOOLCHAIN)
found=$(rt version) || { echo "no rt: the Rattle toolchain has to be on the PATH" >&2; exit 1; }
[ "$found" = "$pinned" ] && exit 0
echo "the toolchain is \"$found\", and TOOLCHAIN names \"$pinned\"" >&2
echo "Prove with that one; or, where this one is to be believed from now on, write its line into TOOLCHAIN." >&2
exit 1
