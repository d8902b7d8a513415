#!/usr/bin/env bash
# The table of a scope beside 60 peers, of this tree and of an earlier revision, by turns on one
# processor: bench/rows.sh [REVISION]. Both with a limit of 65,536 rows a node, so that there is
# room beside 4,096. Each figure is the least of some rounds, in microseconds of processor time.
# Both programs are built without proofs, in a minute each, and without the checks that a proof
# makes needless. ROWS_KEPT may name a folder where they are kept, and taken from at the next run.
set -eu
root=$(cd "$(dirname "$0")/.." && pwd)
me=bench/rows.sh
. "$root/bin/program.sh"
without_checks=1 least_code=100000
revision=${1:-}
folder=$(mktemp -d)
trap 'rm -rf "$folder"' EXIT
kept=${ROWS_KEPT:-$folder}

# Builds the program over the crates of the revision $1, or of this tree where it is empty, into $2.
build() {
  local place=$folder/place
  mkdir -p "$place/crates/rows/src"
  if [ "$1" ]; then
    git -C "$root" archive "$1" crates/dist_types crates/scope_core HANDLES | tar -C "$place" -xf -
  else
    tar -C "$root" --exclude=out -cf - crates/dist_types crates/scope_core HANDLES | tar -C "$place" -xf -
  fi
  cp "$root/bench/rows/main.rt.txt" "$place/crates/rows/src/main.rt"
  # Once the limit was a constant of the crates.
  if ! grep -q 'limit: u32' "$place/crates/scope_core/src/table.rt"; then
    sed -i "s/MAX_ROWS: usize = 4096/MAX_ROWS: usize = 65536/" "$place"/crates/*/src/*.rt
    sed -i 's/, LIMIT)/)/' "$place/crates/rows/src/main.rt"
  fi
  printf '%s\n' 'dist_types: thiserror' 'scope_core: dist_types indexmap thiserror' \
    'rows: scope_core dist_types anyhow' >"$place/crates.txt"
  ready_to_build "$place/crates/rows"
  build_unproved "$place/crates/rows" "$2" -O2
  rm -rf "$place"
}

# Both programs by turns on one processor, so often, with these words.
turns() {
  local times=$1
  shift
  : >"$folder/now"
  : >"$folder/before"
  for _ in $(seq "$times"); do
    if [ "$revision" ]; then LD_PRELOAD=$folder/clock.so taskset -c 0 "$before" "$@" >>"$folder/before"; fi
    LD_PRELOAD=$folder/clock.so taskset -c 0 "$now" "$@" >>"$folder/now"
  done
}

show() {
  awk -F';' -v title="$1" '
    BEGIN { printf "%-34s %12s %12s %8s\n", title, "before", "now", "ratio" }
    FILENAME == ARGV[1] { if (!($1 in was) || $2 < was[$1]) was[$1] = $2; next }
    { if (!($1 in is)) order[++n] = $1; if (!($1 in is) || $2 < is[$1]) is[$1] = $2 }
    END {
      for (i = 1; i <= n; i++) {
        key = order[i]
        if (key in was) printf "%-34s %12.2f %12.2f %8.3f\n", key, was[key] / 1000, is[key] / 1000, is[key] / was[key]
        else printf "%-34s %12s %12.2f %8s\n", key, "-", is[key] / 1000, "-"
      }
    }' "$folder/before" "$folder/now"
}

cc -O2 -shared -fPIC -o "$folder/clock.so" "$root/bench/rows/clock.c"
cat /proc/loadavg
now=$kept/now before=$kept/before
[ -x "$now" ] || build "" "$now"
[ -z "$revision" ] || [ -x "$before" ] || build "$revision" "$before"
for groups in 1 4096; do
  turns 5 60 4096 "$groups" 3
  show "60 peers, 4,096 rows, groups: $groups"
done
turns 5 60 64 64 15
show "60 peers, 64 rows, groups: 64"
for groups in 1 65536; do
  turns 3 60 65536 "$groups" 2
  show "60 peers, 65,536 rows, groups: $groups"
done
turns 5 60 65536 1 0
show "growing to 60 times 65,536 rows"
