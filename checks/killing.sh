# What the checks share that kill the program: calls that are killed at a moment, and whether objects are whole.

# quieten: once, before the first pause
quieten() {
  mkfifo "$scratch/quiet"
  exec {quiet}<>"$scratch/quiet"
}

# Microseconds.
clock() { echo "${EPOCHREALTIME//[!0-9]/}"; }

# pause MICROSECONDS: without a process of its own, since nothing ever comes through this pipe
pause() {
  local seconds
  printf -v seconds '%d.%06d' $(($1 / 1000000)) $(($1 % 1000000))
  read -rt "$seconds" -u "$quiet"
}

# begins WORDS..: a call at $at that goes on by itself
begins() {
  cd "$at" || exit 1
  "$program" "$@" >"$at.out" 2>"$at.err" </dev/null &
  process=$!
}

# kills_after MICROSECONDS: kills it then, and tells its status
kills_after() {
  pause "$1"
  { kill -9 "$process"; wait "$process"; } 2>/dev/null
  status=$?
}

# measure WORDS..: how long a call takes that nobody kills
measure() {
  local began
  began=$(clock)
  begins "$@"
  wait "$process"
  [ $? = 0 ] || failed "$1, which nobody kills: $(cat "$at.err")"
  took=$(($(clock) - began))
}

# Each object's file has the SHA-1 that its folder and name spell.
objects_are_whole() {
  (cd "$1/.dlrepo/objects" 2>/dev/null && find . -type f -exec sha1sum {} +) |
    awk '{ name = $2; gsub(/[.\/]/, "", name); if (name != $1) exit 1 }'
}

# The file of an object, by its id.
object() { echo "$1/.dlrepo/objects/${2:0:2}/${2:2}"; }
