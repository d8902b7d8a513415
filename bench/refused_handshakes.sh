#!/usr/bin/env bash
# Processor time a line of `pg_console run`, for 2,000 and for 20,000 handshakes that are refused at
# their digest, five lines each, the least of five runs. Nothing may grow with the history, so the
# two figures agree.
set -eu
program=$(cd "$(dirname "$0")/.." && pwd)/crates/pg_console/out/pg_console
[ -x "$program" ] || { echo "build it first, by bin/build" >&2; exit 1; }
folder=$(mktemp -d)
trap 'rm -rf "$folder"' EXIT

handshakes() {
  for ((i = 0; i < $1; i++)); do
    link=$((i * 5 + 1))
    printf '%s\n' 'opened 123' "frame $link 4e0000000001000001000000050003614068" "take $link" \
      "frame $link 7200000001482c811da5d5b4bc6d497ffa98491e39" "take $link"
  done
}

for count in 2000 20000; do
  script=$folder/$count
  handshakes "$count" >"$script"
  least=
  for _ in 1 2 3 4 5; do
    times=$( { TIMEFORMAT='%U %S'; time "$program" run b@h password --creation 4 <"$script" >"$folder/out"; } 2>&1)
    [ "$(grep -c '^refused 12 BadDigest$' "$folder/out")" = "$count" ] || { echo "wrong answers" >&2; exit 1; }
    micros=$(awk -v lines=$((count * 5)) '{printf "%.2f", ($1 + $2) * 1000000 / lines}' <<<"$times")
    if [ -z "$least" ] || awk "BEGIN {exit !($micros < $least)}"; then least=$micros; fi
  done
  echo "$((count * 5)) lines: $least microseconds a line"
done
