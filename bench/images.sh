#!/usr/bin/env bash
# Measures `plateroom one` beside a plain C program on one CMYK image in four forms: chunky and planar, each uncompressed
# and PackBits, 12,000 by 9,000 pixels.
# Build the program first: cd crates/plateroom && rt run -- one ../../examples/ramp.tif > /dev/null
# usage: bench/images.sh [FOLDER for the files and the plates]
set -eu
here=$(cd "$(dirname "$0")" && pwd)
folder=${1:-$(mktemp -d)}
mkdir -p "$folder"
cc -O3 -march=x86-64-v2 -o "$folder/images" "$here/images.c"
exec python3 "$here/images.py" "$here/../crates/plateroom/out/plateroom" "$folder/images" "$folder"
