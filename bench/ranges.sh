#!/usr/bin/env bash
# What do ranges and cached nodes cost and save?
# - Turns of a get on a tree of two levels, where all its inner nodes are cached and where none is: the second should be
#   about twice the first.
# - 100,000 ranges of 16 keys by 8 seats over 100,000 keys, with the default cache and without one: time, turns a second,
#   and calls that began at a cached node.
# - The largest sheet: 900,000 puts of 100,000 keys and 1,024 ranges, which ask for 4,194,304 rows in all. Memory should
#   stay within 400 MB.
set -eu
cd "$(dirname "$0")/.."
folder=$(mktemp -d)
trap 'rm -rf "$folder"' EXIT
. bench/count_turns.sh
count_turns_in "$folder"
./run sherman_replay </dev/null >/dev/null
built=crates/sherman_replay/out/sherman_replay
# Puts of as many rising keys as a number says, by eight seats.
puts() { awk -v n="$1" 'BEGIN { for (i = 1; i <= n; i++) printf "put,%d,%d,%d\n", i % 8, i, i % 10 }'; }

puts 100 >"$folder/few"
{ cat "$folder/few"; awk 'BEGIN { for (i = 0; i < 1000; i++) printf "get,0,%d,\n", 1 + i * 37 % 100 }'; } >"$folder/gets"
for cached in 0 256; do
  before=$(count_turns --cached $cached <"$folder/few" | cut -d ' ' -f 1)
  behind=$(count_turns --cached $cached <"$folder/gets")
  echo "1000 gets on two levels with --cached $cached: $((${behind% *} - before)) turns, ${behind#* } begun at a cached node"
done

puts 100000 >"$folder/keys"
{ cat "$folder/keys"; awk 'BEGIN { for (i = 0; i < 100000; i++) { low = 1 + i * 7919 % 99984; printf "range,%d,%d,%d\n", i % 8, low, low + 16 } }'; } >"$folder/ranges"
for cached in 0 16; do
  counted=$(count_turns --chunks 900 --cached $cached <"$folder/ranges")
  turns=${counted% *}
  start=$(date +%s%N)
  "$built" --chunks 900 --cached $cached <"$folder/ranges" >"$folder/lines"
  ms=$(( ($(date +%s%N) - start) / 1000000 ))
  echo "100000 puts and 100000 ranges with --cached $cached: $ms ms, $turns turns, $((turns / ms)) thousand turns a second, ${counted#* } begun at a cached node, $(grep -c ^row "$folder/lines") rows"
done

awk 'BEGIN {
  for (i = 0; i < 900000; i++) printf "put,%d,%d,%d\n", i % 8, 1 + i % 100000, i % 10
  for (i = 0; i < 1024; i++) { low = 1 + i * 93; printf "range,%d,%d,%d\n", i % 8, low, low + 4096 }
}' >"$folder/largest"
if [ -x /usr/bin/time ]; then
  /usr/bin/time -f "the largest sheet: %e seconds, %M KB at most" "$built" --chunks 900 --rows 4096 <"$folder/largest" >"$folder/lines"
else
  "$built" --chunks 900 --rows 4096 <"$folder/largest" >"$folder/lines"
fi
tail -n 1 "$folder/lines"
