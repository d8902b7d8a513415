#!/usr/bin/env bash
# Builds and runs bench/scope_core over the crates of this repository, in a folder of its own: it is
# no crate of the gate, so its source isn't named as one.
set -eu
root=$(cd "$(dirname "$0")/.." && pwd)
folder=$(mktemp -d)
trap 'rm -rf "$folder"' EXIT
mkdir "$folder/crates"
cp -r "$root"/crates/{dist_types,scope_core} "$folder/crates/"
mkdir -p "$folder/crates/scope_speed/src"
cp "$root/bench/scope_core/main.rt.txt" "$folder/crates/scope_speed/src/main.rt"
cp "$root/HANDLES" "$folder/"
printf '%s\n' 'dist_types: thiserror' 'scope_core: dist_types indexmap thiserror' \
  'scope_speed: scope_core dist_types anyhow' >"$folder/crates.txt"
cd "$folder/crates/scope_speed"
rt run --jobs 2 2>"$folder/log" || { tail -n 20 "$folder/log" >&2; exit 1; }
