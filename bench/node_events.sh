#!/usr/bin/env bash
# Processor time of a node's events through `pg_console run`, beside OTP's own pg by the clock where
# `escript` is installed, both from this one run, with the ratio. Each figure is the least of RUNS
# runs (7 if not given), and has the reading of lines and the writing of answers in it; OTP's has
# them in members and Syncs, and beside it stands the bare call. PG_CONSOLE may name another program
# than the built one.
set -eu
here=$(cd "$(dirname "$0")" && pwd)
program=${PG_CONSOLE:-$here/../crates/pg_console/out/pg_console}
runs=${RUNS:-7}
[ -x "$program" ] || { echo "build it first, by bin/build" >&2; exit 1; }
folder=$(mktemp -d)
trap 'rm -rf "$folder"' EXIT

# Gives the node a file of lines, and waits until all are answered.
feed() {
  cat "$1" >&3
  echo size >&3
  until answer=$(tail -n 1 "$folder/out") && [[ $answer == size\ * && $answer != "$answered" ]]; do
    kill -0 "$node" 2>/dev/null || { echo "the program ended at $(tail -n 1 "$folder/out")" >&2; exit 1; }
    sleep 0.005
  done
  answered=$answer
}

# Plays a script on a new node: sets `spent`, the nanoseconds of what is measured, and `grown`, its
# memory in KiB.
play() {
  local part before after
  answered= spent=0 grown=0
  rm -f "$folder/pipe" "$folder/out"
  mkfifo "$folder/pipe"
  : >"$folder/out"
  "$program" run b@h password --creation 4 --entries 2000000 <"$folder/pipe" >"$folder/out" &
  node=$!
  exec 3>"$folder/pipe"
  for part in "$folder"/script/*.before; do
    feed "$part"
    read -r before _ <"/proc/$node/schedstat"
    grown=$((grown - $(awk '/^VmRSS/ {print $2}' "/proc/$node/status")))
    feed "${part%.before}.measured"
    read -r after _ <"/proc/$node/schedstat"
    grown=$((grown + $(awk '/^VmRSS/ {print $2}' "/proc/$node/status")))
    spent=$((spent + after - before))
  done
  exec 3>&-
  wait "$node"
  if grep -qE '^(refused|memory|fault)' "$folder/out"; then
    echo "wrong answers: $(grep -m 1 -E '^(refused|memory|fault)' "$folder/out")" >&2
    exit 1
  fi
}

# Writes the script of this name and size, and sets `count`, its operations.
write_script() {
  rm -rf "$folder/script"
  mkdir "$folder/script"
  count=$(awk -f "$here/node_events.awk" -v folder="$folder/script" -v what="$1" -v size="$2")
}

# The least processor time of a script, in microseconds an operation, beside OTP's figure of the
# same key, and OTP's for the call alone where it has both.
time_of() {
  local key=$1 title=$2 least= run
  write_script "$3" "$4"
  for ((run = 0; run < runs; run++)); do
    play
    if [ -z "$least" ] || [ "$spent" -lt "$least" ]; then least=$spent; fi
  done
  awk -v key="$key" -v title="$title" -v least="$least" -v count="$count" '
    function shown(figure) { return figure == "" ? "-" : sprintf("%.2f", figure) }
    $1 == key { other = $2 }
    $1 == key "_bare" { bare = $2 }
    END {
      own = least / count / 1000
      ratio = other == "" ? "" : own / other
      printf "%-62s %12.2f %12s %8s %12s\n", title, own, shown(other), shown(ratio), shown(bare)
    }' "$folder/otp"
}

# The memory of an entry, in bytes.
memory_of() {
  write_script "$2" "$3"
  play
  awk -v title="$1" -v grown="$grown" -v count="$count" 'BEGIN { printf "%-62s %12.0f\n", title, grown * 1024 / count }'
}

: >"$folder/otp"
if command -v escript >/dev/null; then
  escript "$here/otp_pg.escript" "$folder" >"$folder/otp" || echo "OTP's half ended early" >&2
fi
printf '%-62s %12s %12s %8s %12s\n' 'microseconds' 'pg_console' 'OTP' 'ratio' 'OTP, bare'
time_of - 'an event of a mix, at 1,000 entries' mix 1000
time_of - 'the same, at 500,000 entries' mix 500000
time_of join_leave 'a join and a leave of one process' join_leave 1
time_of join_leave_999 'the same, with 999 other members' join_leave 1000
time_of join_groups 'a join to one of 10,000 groups of four scopes' join_groups 10000
time_of members_1 'members of 1' members 1
time_of members_10 'members of 10' members 10
time_of members_1000 'members of 1,000' members 1000
time_of exit_1000 'the exit of a process with 1,000 memberships' exits 1000
time_of handshake 'a whole handshake and its loss, 6 events' handshakes 1
time_of sync_one_group 'a Sync of 4,096 rows of one group' sync_one_group 4096
time_of sync_groups 'a Sync of 4,096 rows of 4,096 groups' sync_groups 4096
time_of loss 'loss of a link with 4,096 rows in each of 64 scopes' loss 64
time_of told 'a join and a leave, told to 63 peers' told 63
time_of group_monitor 'a join, a leave and their updates, at 100 entries' updates 100
time_of group_monitor 'the same, at 100,000 entries' updates 100000
time_of scope_monitors 'a join and a leave, fetched by 100 scope monitors after each' scope_monitors 100
echo
printf '%-62s %12s\n' 'bytes of memory an entry' 'pg_console'
memory_of 'opened and lost' links_memory 200000
memory_of 'spawn and exit' processes_memory 200000
memory_of 'join and leave of one process' joins_memory 200000
