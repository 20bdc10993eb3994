#!/usr/bin/env bash
# Runs the program with a standard output that is closed, full, or a pipe that nobody reads, and with a standard input that is
# closed or a folder: the status says so, and what was applied stays and is answered again.
# usage: examples/bad_output.sh
set -u

top=$(dirname "$(dirname "$(readlink -f "${BASH_SOURCE[0]}")")")
pbcomb=$top/pbcomb
folder=$(mktemp -d "${TMPDIR:-/tmp}/pbcomb-output.XXXXXX")
trap 'rm -rf "$folder"' EXIT
region=$folder/region
script=$folder/script
printf '0 1 put 3 77\n0 2 get 3\n' >"$script"
kept='0 1 kept was 0 1
0 2 kept is 77 1'

fail() {
  echo "$1: $2" >&2
  exit 1
}

# A call ended with this status; the same script again answers each request from what is kept.
ended() {
  [ "$2" = "$3" ] || fail "$1" "status $2, and $3 was wanted"
  [ "$4" = applied ] || { echo "$1: status $2"; return; }
  [ "$("$pbcomb" "$region" run <"$script")" = "$kept" ] || fail "$1" 'a request is lost'
  echo "$1: status $2, and each request is answered again"
}

# A pipe whose reader is gone: it is opened and closed again before the program writes.
into_closed_pipe() {
  mkfifo "$folder/pipe"
  sleep 30 <"$folder/pipe" &
  local reader=$!
  exec 3>"$folder/pipe"
  kill "$reader"
  wait "$reader" 2>/dev/null
  "$program" "$@" <"$script" >&3 2>/dev/null
  status=$?
  exec 3>&-
  rm "$folder/pipe"
}

# This builds the program where it isn't built yet.
"$pbcomb" - fresh map 1 1 </dev/null || exit 1
program=$top/crates/pbcomb/out/pbcomb

rm -f "$region"
"$program" "$region" fresh map 1 4 <"$script" >&- 2>/dev/null
ended 'output closed' $? 5 applied

rm -f "$region"
"$program" "$region" fresh map 1 4 <"$script" >/dev/full 2>/dev/null
ended 'output full' $? 5 applied

rm -f "$region"
into_closed_pipe "$region" fresh map 1 4
ended 'output a pipe without a reader' "$status" 5 applied

"$program" "$region" report <"$script" >/dev/full 2>/dev/null
ended 'report, output full' $? 5 applied

rm -f "$region"
"$program" "$region" fresh map 1 4 <"$script" >/dev/null 2>&-
ended 'error output closed' $? 0 applied

"$program" now >/dev/full 2>/dev/null
ended 'no command, output full' $? 5 nothing

rm -f "$region"
"$program" "$region" fresh map 1 4 <&- >"$folder/said" 2>/dev/null
ended 'input closed' $? 4 nothing
[ "$(cat "$folder/said")" = 'read fault' ] || fail 'input closed' 'another text'

"$program" "$region" fresh map 1 4 <"$folder" >"$folder/said" 2>/dev/null
ended 'input a folder' $? 4 nothing
[ "$(cat "$folder/said")" = 'read fault' ] || fail 'input a folder' 'another text'
[ ! -e "$region" ] || fail 'input a folder' 'a file was made'
