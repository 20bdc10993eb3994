#!/usr/bin/env bash
# Takes memory away from two programs: `pbcomb`, and `pb_memory_trial`, which makes the calls that take memory and that pbcomb
# doesn't make. Each of a run's requests for memory is refused in turn, once alone and once with all behind it. The run ends
# with status 1 and prints nothing, and the file is as it was, or has a region to which no request was applied; or the run says
# what it says with memory.
#
# Each request is a call of the operating system here (GLIBC_TUNABLES of the C library), and strace refuses it. Where that call
# is refused the C library asks once more, by a call of another length, so that a request alone is two calls. What the program
# loader asks for before the program begins is passed over.
# usage: examples/refused_memory.sh, which wants strace.
set -eu

top=$(dirname "$(dirname "$(readlink -f "${BASH_SOURCE[0]}")")")
pbcomb=$top/crates/pbcomb/out/pbcomb
trial=$top/crates/pb_memory_trial/out/pb_memory_trial
folder=$(mktemp -d "${TMPDIR:-/tmp}/pbcomb-refused.XXXXXX")
trap 'rm -rf "$folder"' EXIT
region=$folder/region

fail() {
  echo "$1" >&2
  exit 1
}

# Makes each request for memory a call of mmap, whatever thread it comes from.
each_a_call=(-E GLIBC_TUNABLES=glibc.malloc.mmap_threshold=1:glibc.malloc.mmap_max=100000:glibc.malloc.arena_max=1
  -e trace=mmap,mremap,brk -e inject=brk,mremap:error=ENOMEM)

# Runs a command with these calls refused. Sets `status`; what was printed is in $folder/said.
without_memory() {
  local calls=$1
  shift
  cp "$folder/before" "$region"
  status=0
  # The loader dies where its own requests are refused, and the shell would say so.
  {
    strace -f -o "$folder/trace" "${each_a_call[@]}" -e inject=mmap:error=ENOMEM:when="$calls" \
      "$@" <"$folder/source" >"$folder/said" || status=$?
  } 2>/dev/null
}

# How often a command asks for memory. What it prints with all of it is in $folder/whole.
requests() {
  cp "$folder/before" "$region"
  strace -f -o "$folder/trace" "${each_a_call[@]}" "$@" <"$folder/source" >"$folder/whole" 2>/dev/null || true
  grep -c ' mmap(' "$folder/trace"
}

# Whether the two calls that were refused are one request: the second is longer, and of a mebibyte at least.
is_one_request() {
  awk -F '[(,]' '/ mmap.*INJECTED/ { length_of[++calls] = $3 + 0 }
    END { exit !(calls == 2 && length_of[2] > length_of[1] && length_of[2] >= 1048576) }' "$folder/trace"
}

# The file is as it was, or a region was made or settled and no request applied.
is_file_left() {
  cmp -s "$folder/before" "$region" && return
  "$pbcomb" "$region" report </dev/null >"$folder/left"
  if "$pbcomb" "$folder/before" report </dev/null >"$folder/stood" 2>/dev/null; then
    cmp -s "$folder/stood" "$folder/left"
  else
    ! grep -v ' none$' "$folder/left" | grep -q '^client ' && grep -q '^rounds 0\( 0\)\?$' "$folder/left"
  fi
}

# Looks at what a run came to, of which some requests were refused. Counts it.
look_at_run() {
  if [ "$status" = 1 ]; then
    [ ! -s "$folder/said" ] || fail "$1: status 1, and something was printed"
    is_file_left || fail "$1: status 1, and the file has something else"
    refused=$((refused + 1))
  elif [ "$status" -ge 126 ]; then
    [ "$refused" = 0 ] || fail "$1: the program ended with status $status"
  else
    cmp -s "$folder/whole" "$folder/said" || fail "$1: status $status, and another text"
  fi
}

# Refuses each request of a command, over the file as it is now.
refuse_each() {
  cp "$region" "$folder/before"
  local name=$1 count refused=0 alone=0
  shift
  count=$(requests "$@")
  for nth in $(seq 1 "$count"); do
    without_memory "$nth+" "$@"
    look_at_run "$name, request $nth and all behind it"
  done
  local all_behind=$refused
  [ "$all_behind" -gt 0 ] || fail "$name: no request was refused"
  refused=0
  for nth in $(seq 1 "$count"); do
    without_memory "$nth..$((nth + 1))" "$@"
    look_at_run "$name, request $nth"
    if [ "$status" = 1 ] && is_one_request; then alone=$((alone + 1)); fi
  done
  [ "$alone" -gt 0 ] || fail "$name: no request was refused alone"
  cp "$folder/before" "$region"
  echo "$name: $count requests for memory; status 1 $all_behind times with all behind it refused, $alone times with one alone"
}

# A run of each kind with this script: `fresh`, `run` and `report`, each with its memory refused, and then with memory.
of_kind() {
  head -c 131072 /dev/zero >"$region"
  printf "$2" >"$folder/source"
  refuse_each "fresh $1 1 4" "$pbcomb" "$region" fresh "$1" 1 4
  "$pbcomb" "$region" fresh "$1" 1 4 <"$folder/source" >/dev/null
  refuse_each "run, of a $1" "$pbcomb" "$region" run
  "$pbcomb" "$region" run <"$folder/source" >/dev/null
  refuse_each "report, of a $1" "$pbcomb" "$region" report
}

# These build the programs where they aren't built yet.
"$top/pbcomb" - fresh map 1 1 </dev/null
[ -x "$trial" ] || (cd "$top/crates/pb_memory_trial" && rt run </dev/null >/dev/null)

of_kind map '0 1 put 3 77\n0 2 get 3\n'
of_kind stack '0 1 push 5\n0 2 pop\n'
of_kind heap '0 1 insert 9\n0 2 insert 3\n'
of_kind queue '0 1 put 7\n0 2 take\n0 3 put 8\n'
head -c 131072 /dev/zero >"$region"
printf '0 1 put 3 77\n1 1 put 2 8\n0 2 get 3\n' >"$folder/source"
refuse_each 'fresh map 2 4, of two clients' "$pbcomb" "$region" fresh map 2 4
refuse_each 'fresh map 2 4, on the trial device' "$pbcomb" - fresh map 2 4
refuse_each 'the trial, of a script' "$trial"
refuse_each 'drill 7 2 8' "$pbcomb" "$region" drill 7 2 8
printf 'ask 0 1 put 3 77\nstep 0 26\nask 0 2 get 3\nstep 0 20\ncrash 3 1\nopen 2\ncrash 0 0\nopen 4\ncrash 0 1\nopen 5\n' \
  >"$folder/source"
refuse_each 'replay map 1 4' "$pbcomb" "$region" replay map 1 4
refuse_each 'the trial, of a schedule' "$trial"
echo 'each time no request was applied'
echo 'Not reached: what is asked for while threads run, and what the C library gets by other calls than mmap.'
