#!/usr/bin/env bash
# Stops a create at each call of the system on files, and lets each such call fail once, by strace. Then the daemon
# runs again: it must find the whole record or none, and the whole one where the create was acknowledged. Named pipes in
# the way, and a second daemon on the same directory, come last.
# PROGRAM is the built daemon, the one that ./cryptohome builds if none is named.
set -euo pipefail
cd "$(dirname "$0")/.."
program=$(readlink -f "${PROGRAM:-crates/cryptohome_cli/out/cryptohome_cli}")
if ! command -v strace > /dev/null; then
  echo 'there is no strace here' >&2
  exit 1
fi
if [ ! -x "$program" ]; then
  echo 'there is no program yet: ./cryptohome builds it' >&2
  exit 1
fi
work=$(mktemp -d)
trap 'rm -rf "$work"' EXIT
cd "$work"
line='{"op":"create","account":"ann"}'
ok='{"answer":"ok"}'
exists='{"answer":"exists"}'
tried=0

fail() {
  echo "failed: $*" >&2
  exit 1
}

# daemon DIR WORD..: the replies to one create, under these words of strace
daemon() {
  local dir=$1
  shift
  echo "$line" | strace -f -qq -o log "$@" "$program" serve "$dir" ann 2> said
}

# check DIR REPLY WHAT: what a second run finds after the first gave this reply
check() {
  local again
  again=$(echo "$line" | "$program" serve "$1" ann) || fail "$3: the second run has status $?"
  case $again in
    "$exists") ;;
    "$ok") [ "$2" != "$ok" ] || fail "$3: an acknowledged record is gone" ;;
    *) fail "$3: the second run says $again" ;;
  esac
  cmp -s "$1/ann.stash" whole/ann.stash || fail "$3: the record isn't whole"
  tried=$((tried + 1))
}

# What a create that nothing stops calls, and the record that it leaves.
reply=$(daemon whole)
mv log log.whole
[ "$reply" = "$ok" ] || fail "a create says $reply"
[ "$(stat -c %a whole whole.chip whole/ann.stash | tr '\n' ' ')" = '700 700 600 ' ] || fail 'modes'
names='openat mkdir mkdirat chmod fchmod fchmodat fsync write read rename renameat renameat2 unlink unlinkat flock
  newfstatat fstat lstat stat statx readlink getdents64'
for name in $names; do
  count=$(awk -v n="$name" '{ sub(/^[0-9]+ +/, ""); sub(/\(.*/, ""); if ($0 == n) c++ } END { print c + 0 }' log.whole)
  for ((at = 1; at <= count; at++)); do
    for deed in signal=KILL error=EIO; do
      rm -rf state state.chip
      reply=$(daemon state -e "inject=$name:$deed:when=$at") || true
      check state "$reply" "$name $at $deed"
    done
  done
done
[ "$tried" -gt 20 ] || fail "only $tried calls were tried"
echo "$tried runs were stopped or had a failing call; each left the whole record or none"

# A named pipe in place of the record is a fault, and one in place of its temporary file is removed.
rm -rf state state.chip
mkdir state
mkfifo state/ann.stash
status=0
echo "$line" | timeout 10 "$program" serve state ann > /dev/null 2>&1 || status=$?
[ "$status" = 3 ] || fail "a pipe in place of the record: status $status"
rm state/ann.stash
mkfifo state/tmp-ann.stash
reply=$(echo "$line" | timeout 10 "$program" serve state ann) || fail 'a pipe in place of the temporary file'
[ "$reply" = "$ok" ] || fail "a pipe in place of the temporary file: $reply"

# A second daemon isn't let in while the first has the directory open.
mkfifo lines
"$program" serve state ann < lines > replies &
first=$!
exec 3> lines
echo "$line" >&3
until [ -s replies ]; do sleep 0.1; done
status=0
echo "$line" | "$program" serve state/. ann > /dev/null 2>&1 || status=$?
exec 3>&-
wait "$first"
[ "$status" = 3 ] || fail "a second daemon: status $status"
echo 'pipes in the way are no records, and a second daemon is refused'
