#!/usr/bin/env bash
# A node's events taken by `NodeCore::step` itself, beside OTP's own pg where `escript` is
# installed: both in one process and by the clock, from this one run, with the ratio. Each figure is
# the least of some rounds, and has in it the making of the event and the letting go of its answer.
# The program is no crate of the gate, so its source isn't named as one: it is built in a folder of
# its own over what the crates keep of their proofs (prove them first, by bin/build), and
# proved, which takes minutes. NODE_SPEED may name a file where the built program is kept, and taken
# from at the next run. With ONE=1 both are measured by processor time on the last processor, OTP
# with one scheduler and without the second node, whose timers want a clock that goes on.
set -eu
root=$(cd "$(dirname "$0")/.." && pwd)
folder=$(mktemp -d)
trap 'rm -rf "$folder"' EXIT
program=${NODE_SPEED:-$folder/program}

# Builds the program. The run in it isn't counted.
build() {
  tar -C "$root" --exclude=crates/pg_console --exclude=out/incremental -cf - crates HANDLES | tar -C "$folder" -xf -
  mkdir -p "$folder/crates/node_speed/src"
  cp "$root/bench/node_core/main.rt.txt" "$folder/crates/node_speed/src/main.rt"
  {
    grep -v '^pg_console:' "$root/crates.txt"
    echo 'node_speed: dist_types handshake_frames cookie_digest link_frames policy_audit node_core indexmap md5 anyhow'
  } >"$folder/crates.txt"
  (cd "$folder/crates/node_speed" && rt run --jobs 1) >"$folder/log" 2>&1 || { tail -n 20 "$folder/log" >&2; exit 1; }
  cp "$folder/crates/node_speed/out/node_speed" "$program"
}

# Prints a line of both: this key's, under this title; of OTP that of the key $3, where it has
# another. Of OTP it is the bare call, where there is one with lines, too.
line() {
  awk -v key="$1" -v title="$2" -v theirs="${3:-$1}" '
    FILENAME == ARGV[1] && $1 == key { own = $2 / 1000 }
    FILENAME == ARGV[2] && $1 == theirs { other = $2 }
    FILENAME == ARGV[2] && $1 == theirs "_bare" { bare = $2 }
    END {
      if (bare != "") other = bare
      if (other == "") printf "%-62s %12.2f %12s %8s\n", title, own, "-", "-"
      else printf "%-62s %12.2f %12.2f %8.2f\n", title, own, other, own / other
    }' "$folder/steps" "$folder/otp"
}

[ -x "$program" ] || build
theirs=$root/bench/otp_pg.escript alone=()
if [ "${ONE:-}" ]; then
  cc -O2 -shared -fPIC -o "$folder/clock.so" "$root/bench/rows/clock.c"
  theirs=$folder/otp_pg.escript alone=(env "LD_PRELOAD=$folder/clock.so" taskset -c "$(($(nproc --all) - 1))")
  sed -e '2s/.*/%%! +S 1:1/' -e '/timer:sleep(500)/d' -e 's/RUNS, 7/RUNS, 15/' "$root/bench/otp_pg.escript" >"$theirs"
fi
cat /proc/loadavg
"${alone[@]}" "$program" >"$folder/steps"
: >"$folder/otp"
if command -v escript >/dev/null; then
  "${alone[@]}" escript "$theirs" >"$folder/otp" || echo "OTP's half ended early" >&2
fi
printf '%-62s %12s %12s %8s\n' 'microseconds' 'step' 'OTP' 'ratio'
line mix_1000 'an event of a mix, at 1,000 entries'
line mix_500000 'the same, at 500,000 entries'
line join_leave 'a join and a leave of one process'
line join_leave_999 'the same, with 999 other members'
line join_groups 'a join to one of 10,000 groups of four scopes'
line members_1 'members of 1, asked again'
line members_10 'members of 10, asked again'
line members_1000 'members of 1,000, asked again'
line members_1000_changed 'members of 1,000, asked after a change' members_1000
line exit_1000 'the exit of a process with 1,000 memberships'
line handshake 'a whole handshake and its loss, 6 events'
line sync_one_group 'a Sync of 4,096 rows of one group'
line sync_groups 'a Sync of 4,096 rows of 4,096 groups'
line parts_one_group 'the last part of a Sync of 65,536 rows of one group'
line parts_groups 'the last part of one of 65,536 rows of 65,536 groups'
line discover_4096 'the answer to a Discover of 4,096 rows, a row'
line discover_65536 'the same of 65,536 rows, a row'
line told_60 'a join and a leave, told to 60 peers of version 1'
line told_60_parted 'the same of version 2'
line told_60_both 'the same, 30 of each version'
line loss 'loss of a link with 4,096 rows in each of 64 scopes'
line told 'a join and a leave, told to 63 peers'
line told_rows 'a join of 4,096 processes, told to 63 peers and taken'
line group_monitor 'a join, a leave and their updates'
line scope_monitors 'a join and a leave, fetched by 100 scope monitors after each'
