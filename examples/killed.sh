#!/usr/bin/env bash
# Kills the program in mid-run with SIGKILL, up to five times (status 137), and runs the same script again to its end: each request took
# effect once. The region is in a file. Four clients put 1, 2, 3 .. into a register each. A put makes its register's
# version one more, so a version tells how many puts took effect.
# usage: examples/killed.sh
set -eu

top=$(dirname "$(dirname "$(readlink -f "${BASH_SOURCE[0]}")")")
pbcomb=$top/pbcomb
clients=4
kills=5

folder=$(mktemp -d "${TMPDIR:-/tmp}/pbcomb-killed.XXXXXX")
running=
finish() {
  [ -z "$running" ] || kill -KILL "$running" 2>/dev/null || true
  rm -rf "$folder"
}
trap finish EXIT
region=$folder/region
script=$folder/script

# The puts of each client, up to this number.
puts_to() {
  for number in $(seq 1 "$1"); do
    for client in $(seq 0 $((clients - 1))); do
      echo "$client $number put $client $number"
    done
  done
}

# How many rounds the region has had: the word at the front of its line 1.
rounds() {
  od -An -t u8 -j 64 -N 8 "$region" | tr -d ' '
}

# Runs the script and kills the program once the region has had so many rounds. The file is not touched by anyone else.
run_and_kill() {
  "$pbcomb" "$region" run <"$script" >/dev/null &
  running=$!
  while [ "$(rounds)" -lt "$1" ] && kill -0 "$running" 2>/dev/null; do :; done
  kill -KILL "$running" 2>/dev/null || true
  status=0
  { wait "$running" || status=$?; } 2>/dev/null
  running=
}

# This builds the program where it isn't built yet.
"$pbcomb" - fresh map 1 1 </dev/null

# The first puts make the region, and tell how fast the disk is, so that the whole takes some seconds, and how many puts share a round.
puts_to 25 >"$script"
began=$(date +%s%N)
"$pbcomb" "$region" fresh map "$clients" 4 <"$script" >/dev/null
puts=$((25 * 3000000000 / ($(date +%s%N) - began)))
puts=$((puts > 8000 ? 8000 : puts < 100 ? 100 : puts))
requests=$((clients * puts))
first_requests=$((clients * 25))
first_rounds=$(rounds)
puts_to "$puts" >"$script"
echo "$requests requests of $clients clients, and the region is $region"

for kill in $(seq 1 "$kills"); do
  run_and_kill $((requests * kill / (kills + 1) * first_rounds / first_requests))
  echo "run $kill ended with status $status, and the region has had $(rounds) rounds"
done

"$pbcomb" "$region" run <"$script" >"$folder/outcomes"
for outcome in old kept new; do
  echo "of the last run's requests are $outcome: $(grep -c "^[0-9]* [0-9]* $outcome" "$folder/outcomes" || true)"
done
"$pbcomb" "$region" report </dev/null >"$folder/report"
grep '^register ' "$folder/report"

once=$(for client in $(seq 0 $((clients - 1))); do echo "register $client $puts $puts"; done)
if [ "$(grep '^register ' "$folder/report")" != "$once" ]; then
  echo 'a request took effect twice, or not at all' >&2
  exit 1
fi
echo "each of the $requests requests took effect once"
