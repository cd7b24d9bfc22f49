# What the checks share: their lines, and the built program in a scratch folder of each check.
# A check calls `begin`, then its functions, and ends with `finish`.

failures=0

# The words that start the program as another user, where a check wants that.
as=()

ok() { echo "ok: $*"; }
failed() {
  echo "FAILED: $*"
  failures=$((failures + 1))
}
skipped() { echo "skipped: $1 ($2)"; }

# What the program says of a device that failed.
device=$'datalad: a device failed\n'

# says NAME COMMAND..: ok where the command succeeds
says() {
  local name=$1
  shift
  if "$@"; then ok "$name"; else failed "$name"; fi
}

# same NAME GOT WANTED: ok where both texts are the same
same() {
  if [ "$2" = "$3" ]; then ok "$1"; else failed "$1: got ${2@Q}, and not ${3@Q}"; fi
}

# none NAME LINES: ok where there are no lines; else they are listed
none() {
  if [ -z "$2" ]; then
    ok "$1: none"
  else
    failed "$1: $(wc -l <<<"$2")"
    sed 's/^/  /' <<<"$2"
  fi
}

has() { command -v "$1" >/dev/null; }

# Builds the program where need be, and copies it to a scratch folder, where every user may run it.
begin() {
  top=$(cd "$(dirname "${BASH_SOURCE[0]}")/.." && pwd -P)
  scratch=$(cd "$(mktemp -d)" && pwd -P) || exit 1
  trap 'chmod -R u+rwx "$scratch"; rm -rf "$scratch"' EXIT
  chmod 711 "$scratch"
  "$top/datalad" >"$scratch/said" 2>&1 </dev/null
  if [ $? != 2 ]; then
    cat "$scratch/said" >&2
    failed "the program can't be built, or doesn't start"
    finish
  fi
  program=$scratch/datalad
  install -m 755 "$top/crates/datalad/out/datalad" "$program"
}

finish() { exit $((failures > 0)); }

# A new folder for one check.
room() { mktemp -d -p "$scratch"; }

# run WORDS..: runs the program in the folder $at; its texts are $at.out and $at.err, its status is $status
run() {
  (cd "$at" && exec "${as[@]}" "$program" "$@") >"$at.out" 2>"$at.err" </dev/null
  status=$?
}

# The files below a folder, one a line, in byte order.
files_of() { (cd "$1" && find . -type f | sed 's|^\./||' | LC_ALL=C sort); }

# All that stands below a folder: kinds, modes, times, names, and the sums of the files.
picture() {
  (cd "$1" && { find . -printf '%y %m %T@ %p\n' && find . -type f -exec sha1sum {} +; } 2>/dev/null | LC_ALL=C sort)
}

# is_dataset FOLDER: whether it holds the nine files of a new dataset, and no other file
is_dataset() {
  local uuid='[0-9a-f]{8}-[0-9a-f]{4}-5[0-9a-f]{3}-[89ab][0-9a-f]{3}-[0-9a-f]{12}' main id names
  names=$(files_of "$1" | sed -E 's|^(\.dlrepo/objects/)[0-9a-f]{2}/[0-9a-f]{38}$|\1ID|')
  [ "$names" = ".datalad/config
.dlrepo/HEAD
.dlrepo/config
.dlrepo/index
.dlrepo/objects/ID
.dlrepo/objects/ID
.dlrepo/objects/ID
.dlrepo/objects/ID
.dlrepo/refs/heads/main" ] || return 1
  [[ $(cat "$1/.datalad/config" && echo .) =~ ^'[datalad "dataset"]'$'\n\tid = '$uuid$'\n'\.$ ]] || return 1
  [[ $(cat "$1/.dlrepo/config" && echo .) =~ ^'[annex]'$'\n\tuuid = '$uuid$'\n\tnumcopies = 1\n[user]\n\tname = DataLad User\n\temail = user@localhost\n'\.$ ]] || return 1
  [ "$(cat "$1/.dlrepo/HEAD" && echo .)" = $'ref: refs/heads/main\n.' ] || return 1
  [ "$(wc -c <"$1/.dlrepo/index")" = 112 ] || return 1
  [ "$(head -c 92 "$1/.dlrepo/index" | sha1sum)" = "$(tail -c 20 "$1/.dlrepo/index" | od -An -v -tx1 | tr -d ' \n')  -" ] || return 1
  main=$(cat "$1/.dlrepo/refs/heads/main" && echo .)
  [[ $main =~ ^[0-9a-f]{40}$'\n'\.$ ]] || return 1
  id=${main:0:40}
  [ "$(sha1sum <"$1/.dlrepo/objects/${id:0:2}/${id:2}")" = "$id  -" ] || return 1
}

# ended NAME STATUS OUT ERR: how the last run ended, with both its texts
ended() {
  same "$1" "$(echo "$status" && cat "$at.out" && echo "--" && cat "$at.err" && echo "--")" "$2"$'\n'"$3--"$'\n'"$4--"
}

# changes_nothing NAME STATUS ERR WORDS..: a call that is refused, or fails, and leaves all as it was
changes_nothing() {
  local name=$1 wanted=$2 text=$3 before
  shift 3
  before=$(picture "$at")
  run "$@"
  ended "$name: status and text" "$wanted" "" "$text"
  same "$name: nothing changed" "$(picture "$at")" "$before"
}

# Sets `as` to the words that start a program without privileges.
without_privileges() {
  as=()
  [ "$EUID" = 0 ] || return 0
  as=(setpriv --reuid=65534 --regid=65534 --clear-groups --no-new-privs)
  "${as[@]}" test -x "$program" 2>/dev/null
}
