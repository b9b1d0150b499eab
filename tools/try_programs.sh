#!/bin/sh
# Runs the check program, as `rt ci` or `rt run` has built it, on every example and on odd files. A line for each; the
# exit status is 1 if one prints something else than it should.
set -eu
root=$(CDPATH='' cd -- "$(dirname -- "$0")/.." && pwd -P)
program=$root/crates/check_graph/out/check_graph
[ -x "$program" ] || { echo "no crates/check_graph/out/check_graph: rt ci makes it" >&2; exit 2; }

room=$(mktemp -d)
trap 'chmod -R u+rw "$room"; rm -rf "$room"' EXIT
bad=0
tried=0
# Before the program: root, who may read any file, becomes nobody where a file without permission is tried.
as=

# Compares what the program prints in a folder with a file.
compare() { # NAME DIR EXPECTED
    tried=$((tried + 1))
    if (cd "$2" && timeout 30 $as "$program") >"$room/printed" 2>"$room/said" &&
        [ ! -s "$room/said" ] && cmp -s "$room/printed" "$3"
    then
        echo "ok        $1: $(head -n 1 "$3")"
    else
        bad=$((bad + 1))
        echo "DIFFERENT $1: expected $(head -n 1 "$3"), printed $(head -n 1 "$room/printed")$(cat "$room/said")"
    fi
}

for example in "$root"/examples/*/; do
    [ -f "$example/expected.txt" ] || continue
    compare "examples/$(basename "$example")" "$example" "$example/expected.txt"
done

# ---- odd files. A word names what stands in a file's place.
sized() { dd if=/dev/zero bs=1 count="$1" 2>/dev/null; } # BYTES, all 0

place() { # WORD FILE
    right=$root/examples/pedal/$(basename "$2")
    case $1 in
        none) ;;
        folder) mkdir "$2" ;;
        right) cp "$right" "$2" ;;
        locked) cp "$right" "$2"; chmod 0 "$2" ;;
        full) { cat "$right"; sized 65536; } | dd bs=1 count=65536 2>/dev/null >"$2" ;;
        longer) { cat "$right"; sized 65536; } | dd bs=1 count=65537 2>/dev/null >"$2" ;;
        piped) # short reads
            mkfifo "$2"
            { dd bs=1 count=5; sleep 1; dd bs=1 count=1; sleep 1; cat; } <"$right" >"$2" 2>/dev/null & ;;
        *) sized "$1" >"$2" ;;
    esac
}

odd() { # MODEL GRAPH LINE
    rm -rf "$room/files"
    mkdir "$room/files"
    place "$1" "$room/files/model.fold"
    place "$2" "$room/files/graph.fold"
    if [ "$3" = pedal ]; then cp "$root/examples/pedal/expected.txt" "$room/line"; else echo "$3" >"$room/line"; fi
    compare "model $1, graph $2" "$room/files" "$room/line"
}

odd right right pedal
odd piped right pedal
odd right piped pedal
odd none none 'no file'
odd none right 'no file'
odd right none 'no file'
odd folder right 'no file'
odd right folder 'no file'
odd 0 right 'refused 1 0'
odd 1 right 'refused 1 0'
odd right 0 'refused 12 0'
odd right 1 'refused 12 0'
# A model ends at 40,000 bytes; one of 65,536 is read, and breaks row 1. A graph with bytes left over breaks row 13.
odd 40000 right 'refused 2 0'
odd full right 'refused 1 0'
odd right full 'refused 13 1'
odd longer right 'too long'
odd right longer 'too long'
odd 65537 65537 'too long'
# Both files are read before any check, and the model is looked at first.
odd 0 none 'no file'
odd 0 longer 'too long'
odd longer none 'too long'
odd none longer 'no file'
if [ "$(id -u)" = 0 ]; then
    as='setpriv --reuid=65534 --regid=65534 --clear-groups'
    cp "$program" "$room/program"
    chmod 755 "$room" "$room/program"
fi
if [ -z "$as" ] || $as test -x "$room/program" 2>/dev/null; then
    kept=$program
    [ -z "$as" ] || program=$room/program
    odd right right pedal
    odd locked right 'no file'
    odd right locked 'no file'
    program=$kept
else
    echo "skipped   a file without permission: root may read it, and cannot become nobody here"
fi
as=

# The model is read first, to its end: the second pipe gets its bytes only once the first has been read. A program that
# opens the graph first, or both before it reads, waits until it is stopped.
rm -rf "$room/files"
mkdir "$room/files"
mkfifo "$room/files/model.fold" "$room/files/graph.fold"
timeout 30 sh -c 'cat "$1/model.fold" >"$2/model.fold" && cat "$1/graph.fold" >"$2/graph.fold"' \
    sh "$root/examples/pedal" "$room/files" &
compare "the model read before the graph is opened" "$room/files" "$root/examples/pedal/expected.txt"

# Node 5 of the pedal example waiting, whose kind is at byte 116: no figures.
rm -rf "$room/files"
mkdir "$room/files"
place right "$room/files/model.fold"
place right "$room/files/graph.fold"
printf '\000' | dd of="$room/files/graph.fold" bs=1 seek=116 conv=notrunc 2>/dev/null
printf 'accepted 6 nodes 3 expanded 2 covered 0 target 1 waiting\nroot 10000000\n' >"$room/line"
compare "node 5 waiting" "$room/files" "$room/line"

# A graph of exactly 65,536 bytes that is accepted: the pedal's with covered copies of node 4 and four copies of node 2.
rm -rf "$room/files"
mkdir "$room/files"
if command -v python3 >/dev/null; then
    {
        cat "$root/examples/pedal/pedal.graph"
        awk 'BEGIN {
            twin = " expanded value 100_000_000 tracks a=1 state a=1 d=0\n  edge 0: 4 5"
            for (n = 6; n < 10; n++) print "node " n twin
            for (; n < 3274; n++) print "node " n " covered by 1 value 0 tracks a=3 state a=3 d=0"
        }'
    } >"$room/full.graph"
    cp "$root/examples/pedal/model.fold" "$room/files/model.fold"
    python3 "$root/tools/fold.py" graph "$room/full.graph" "$room/files/model.fold" "$room/files/graph.fold" >/dev/null
    [ "$(wc -c <"$room/files/graph.fold")" -eq 65536 ] || { echo "the full graph is not 65,536 bytes" >&2; exit 2; }
    {
        echo 'accepted 3274 nodes 7 expanded 3266 covered 1 target 0 waiting'
        tail -n +2 "$root/examples/pedal/expected.txt"
    } >"$room/line"
    compare "a graph of 65,536 bytes" "$room/files" "$room/line"
else
    echo "skipped   an accepted graph of 65,536 bytes: no python3 to make it"
fi

echo "$tried tried, $bad different"
[ "$bad" = 0 ]
