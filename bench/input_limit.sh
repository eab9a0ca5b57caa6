#!/usr/bin/env bash
# Shows the input limit: 2^32 - 1 bytes end with status 0, and 2^32 with status 8. It takes some ten seconds,
# and a directory of its own.
set -euo pipefail
top=$(cd "$(dirname "$(readlink -f "${BASH_SOURCE[0]}")")/.." && pwd)
place=$(mktemp -d)
trap 'rm -rf "$place"' EXIT
failed=0
for want in '4294967295 0' '4294967296 8'; do
  read -r bytes status <<< "$want"
  got=0
  head -c "$bytes" /dev/zero | "$top/cryptohome" serve "$place/homes" ann > "$place/replies" 2> "$place/said" || got=$?
  echo "$bytes bytes: status $got, wanted $status, said '$(tr -d '\n' < "$place/said")'"
  [ "$got" = "$status" ] || failed=1
done
exit "$failed"
