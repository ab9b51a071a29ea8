#!/usr/bin/env bash
# How long do calls take, and in how much memory, as the tree grows? Times sheets of 10,000, 100,000 and 1,000,000 puts,
# gets and deletes by 8 seats over growing keys, in rounds: of eight calls of a seat, four put a new key, two get and one
# deletes an earlier one, and one puts it again. Turns per second, of the whole run with its reading and writing but without
# what an empty sheet takes (the laying of the pool), should stay within 1.5 of each other, and memory within 300 MB.
set -eu
cd "$(dirname "$0")/.."
folder=$(mktemp -d)
trap 'rm -rf "$folder"' EXIT
for n in 10000 100000 1000000; do
  awk -v n="$n" 'BEGIN {
    for (i = 1; i <= n; i++) {
      seat = i % 8; step = int(i / 8) % 8; old = int(i / 2) + 1
      if (step < 4) printf "put,%d,%d,%d\n", seat, i, i % 10
      else if (step < 6) printf "get,%d,%d,\n", seat, old
      else if (step < 7) printf "del,%d,%d,\n", seat, old
      else printf "put,%d,%d,%d\n", seat, old, i % 10
    }
  }' >"$folder/$n.csv"
done
. bench/count_turns.sh
count_turns_in "$folder"
./run sherman_replay </dev/null >/dev/null
built=crates/sherman_replay/out/sherman_replay
# The least time of five runs of a sheet with these words, in milliseconds.
least_time() {
  local input=$1 least=999999999 start ms
  shift
  for _ in 1 2 3 4 5; do
    start=$(date +%s%N)
    "$built" --chunks 900 "$@" <"$input" >"$folder/lines"
    ms=$(( ($(date +%s%N) - start) / 1000000 ))
    least=$((ms < least ? ms : least))
  done
  echo "$least"
}
empty=$(least_time /dev/null)
echo "an empty sheet: $empty ms"
# Calls that are made: should take 2.5 seconds and 300 MB at most.
ms=$(least_time /dev/null --make 1000000 --seed 7)
echo "1000000 made calls: $ms ms, $(tail -n 1 "$folder/lines")"
if [ -x /usr/bin/time ]; then
  /usr/bin/time -f "1000000 made calls: %M KB at most" "$built" --chunks 900 --make 1000000 --seed 7 </dev/null >/dev/null
fi
for n in 10000 100000 1000000; do
  turns=$(count_turns --chunks 900 <"$folder/$n.csv" | cut -d " " -f 1)
  ms=$(least_time "$folder/$n.csv")
  echo "$n calls: $ms ms, $turns turns, $((turns / (ms - empty))) thousand turns a second, $(tail -n 1 "$folder/lines")"
  if [ -x /usr/bin/time ]; then
    /usr/bin/time -f "$n calls: %M KB at most" "$built" --chunks 900 <"$folder/$n.csv" >/dev/null
  fi
done
