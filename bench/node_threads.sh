#!/usr/bin/env bash
# `Pass::call` of one thread beside `NodeCore::step`, and threads that call one node at once beside
# threads that make the same steps under a bare lock, and beside OTP's own pg with as many
# processes, where `escript` is installed: by the clock, from this one run, with the load of the
# machine before it. Each figure is the least of some rounds, and has in it the making of the events
# and the letting go of answers. The program is no crate of the gate, so its source isn't named as
# one: it is built in a folder of its own, without proofs, in a minute or two. THREADS_SPEED may
# name a file where the built program is kept, and taken from at the next run.
set -eu
root=$(cd "$(dirname "$0")/.." && pwd)
me=bench/node_threads.sh
. "$root/bin/program.sh"
folder=$(mktemp -d)
trap 'rm -rf "$folder"' EXIT
program=${THREADS_SPEED:-$folder/program}

build() {
  tar -C "$root" --exclude=out -cf - crates HANDLES | tar -C "$folder" -xf -
  mkdir -p "$folder/crates/threads_speed/src"
  cp "$root/bench/node_threads/main.rt.txt" "$folder/crates/threads_speed/src/main.rt"
  {
    cat "$root/crates.txt"
    echo 'threads_speed: dist_types handshake_frames cookie_digest link_frames policy_audit node_core node_threads indexmap md5 anyhow'
  } >"$folder/crates.txt"
  ready_to_build "$(dirname "$program")"
  build_unproved "$folder/crates/threads_speed" "$program" -O3
}

# Prints a line of `step` and `call`: this key's, under this title.
beside() {
  awk -v key="$1" -v title="$2" '
    $1 == key { printf "%-40s %12.2f %12.2f %+12.2f\n", title, $2 / 1000, $3 / 1000, ($3 - $2) / 1000 }' "$folder/here"
}

# Prints a line of all for so many threads, in million events a second.
together() {
  awk -v key="threads_$1" -v title="$2" '
    $1 == key && FILENAME == ARGV[1] { own = 1000 / $2; bare = 1000 / $3 }
    $1 == key && FILENAME == ARGV[2] { other = 1000 / $2 }
    END {
      printf "%-30s %10.2f %10.2f %10.2f", title, own, bare, own / bare
      if (other == "") printf " %10s %10s\n", "-", "-"
      else printf " %10.2f %10.2f\n", other, own / other
    }' "$folder/here" "$folder/otp"
}

[ -x "$program" ] || build
cat /proc/loadavg
"$program" >"$folder/here"
: >"$folder/otp"
if command -v escript >/dev/null; then
  escript "$root/bench/node_threads/pg_callers.escript" >"$folder/otp" || echo "OTP's half ended early" >&2
fi
printf '%-40s %12s %12s %12s\n' 'microseconds an event' 'step' 'call' 'more'
beside join_leave_1 'a join or leave of one process'
beside members_1 'members of 1'
beside join_leave_100 'a join or leave of 100 processes'
beside members_100 'members of 100'
printf '%-30s %10s %10s %10s %10s %10s\n' 'million events a second' 'calls' 'bare lock' 'ratio' 'OTP' 'ratio'
together 1 'one thread'
together 2 'two threads'
together 4 'four threads'
