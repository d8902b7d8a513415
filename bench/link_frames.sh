#!/usr/bin/env bash
# Builds and runs bench/link_frames over the crates of this repository, in a folder of its own: it
# is no crate of the gate, so its source isn't named as one.
set -eu
root=$(cd "$(dirname "$0")/.." && pwd)
folder=$(mktemp -d)
trap 'rm -rf "$folder"' EXIT
mkdir "$folder/crates"
cp -r "$root"/crates/{dist_types,handshake_frames,link_frames} "$folder/crates/"
mkdir -p "$folder/crates/link_speed/src"
cp "$root/bench/link_frames/main.rt.txt" "$folder/crates/link_speed/src/main.rt"
cp "$root/HANDLES" "$folder/"
printf '%s\n' 'dist_types: thiserror' 'handshake_frames: dist_types thiserror' \
  'link_frames: dist_types handshake_frames thiserror' 'link_speed: link_frames anyhow' >"$folder/crates.txt"
cd "$folder/crates/link_speed"
rt run 2>"$folder/log" || { tail -n 20 "$folder/log" >&2; exit 1; }
