#!/usr/bin/env bash
# The host's tree beside the hashes that it needs: what a change of one label takes, what seven SHA-256 of a
# node's 129 bytes take, and what a new tree takes by the number of its used labels.
# ROUNDS is how often each is measured, in turn: the least time counts.
set -euo pipefail
cd "$(dirname "$0")/.."
program=crates/tree_bench/out/tree_bench
rounds=${ROUNDS:-9}

(cd crates/tree_bench && rt run > /dev/null)

# least WORK COUNT: the least microseconds of all rounds
least() {
  for _ in $(seq "$rounds"); do "$program" "$1" "$2"; done | sort -n -k 3 | awk 'NR == 1 { print $3 }'
}

row() { printf '%-28s %12s\n' "$@"; }

grep -m 1 '^model name' /proc/cpuinfo || true
edits=$(least edits 20000)
hashes=$(least hashes 140000)
row work microseconds
row 'a change of a label' "$(awk -v t="$edits" 'BEGIN { printf "%.2f", t / 20000 }')"
row 'seven hashes of a node' "$(awk -v t="$hashes" 'BEGIN { printf "%.2f", t / 20000 }')"
row 'ratio' "$(awk -v a="$edits" -v b="$hashes" 'BEGIN { printf "%.2f", a / b }')"
for used in 0 144 288 576; do
  row "a tree with $used used labels" "$(least opening "$used")"
done
