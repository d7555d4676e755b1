#!/usr/bin/env bash
# Runs the built program on each folder of examples/ and compares what it prints; the map file is drawn anew first and compared too.
set -eu
root=$(cd "$(dirname "$0")/.." && pwd -P)
room=$(mktemp -d)
trap 'rm -rf "$room"' EXIT
for folder in "$root"/examples/*/; do
    python3 "$root/tools/draw.py" "$folder/drawing.txt" "$room/map.bin"
    cmp "$room/map.bin" "$folder/map.bin"
    (cd "$room" && "$root/crates/detours/out/detours") <"$folder/commands.txt" | diff - "$folder/output.txt"
    echo "$(basename "$folder"): as written"
done
