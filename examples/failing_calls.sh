#!/usr/bin/env bash
# Lets each system call of the program on its file fail in turn, or kills the program at it, and then runs the script to
# its end: each request took effect once, and no file of another length was left.
# usage: examples/failing_calls.sh, which wants strace.
set -eu

top=$(dirname "$(dirname "$(readlink -f "${BASH_SOURCE[0]}")")")
pbcomb=$top/pbcomb
folder=$(mktemp -d "${TMPDIR:-/tmp}/pbcomb-failing.XXXXXX")
trap 'rm -rf "$folder"' EXIT
region=$folder/region
script=$folder/script

printf '0 1 put 3 77\n1 1 put 1 6\n0 2 get 3\n1 2 cas 1 1 9\n' >"$script"
once='kind map
clients 2
size 4
client 0 2 get 3 is 77 1
client 1 2 cas 1 1 9 was 6 2
registers 2
register 1 9 2
register 3 77 1'

fail() {
  echo "after $1: $2" >&2
  exit 1
}

# Runs the script and lets a system call fail, or kills the program at it.
fails_at() {
  {
    strace -f -o "$folder/trace" -e trace="$call" -e inject="$1" \
      "$program" "$region" fresh map 2 4 <"$script" >/dev/null || true
  } 2>/dev/null
}

# Runs the script to its end on what the failing run left, and makes the region where there is none.
to_the_end() {
  [ ! -e "$region" ] || [ "$(stat -c %s "$region")" = 131072 ] || fail "$1" 'a file of another length'
  status=0
  "$pbcomb" "$region" run <"$script" >/dev/null 2>&1 || status=$?
  if [ "$status" = 7 ]; then
    status=0
    "$pbcomb" "$region" fresh map 2 4 <"$script" >/dev/null 2>&1 || status=$?
  fi
  [ "$status" = 0 ] || fail "$1" "status $status"
  [ "$("$pbcomb" "$region" report </dev/null | grep -v '^rounds ')" = "$once" ] || fail "$1" 'a request took effect twice, or not at all'
}

# This builds the program where it isn't built yet.
"$pbcomb" - fresh map 1 1 </dev/null
program=$top/crates/pbcomb/out/pbcomb

for how in error=EIO error=ENOSPC signal=SIGKILL; do
  for call in openat statx lseek write fdatasync fsync link unlink; do
    count=0
    while true; do
      rm -f "$region" "$region.being-made"
      fails_at "$call:$how:when=$((count + 1))"
      grep -q 'INJECTED\|killed by SIGKILL' "$folder/trace" || break
      count=$((count + 1))
      to_the_end "$how at call $count of $call"
    done
    echo "$how: each of $count calls of $call"
  done
done
echo 'each request took effect once'
