#!/usr/bin/env bash
# Is a sheet read in a time linear in its bytes, and in how much memory? Times sheets of 100,000 and of 1,000,000 gets
# before a row that is refused, so that all rows are read and no call is served; the second should take about ten times as
# long. An item takes 96 bytes.
set -eu
cd "$(dirname "$0")/.."
folder=$(mktemp -d)
trap 'rm -rf "$folder"' EXIT
for n in 100000 1000000; do
  awk -v n="$n" 'BEGIN { for (i = 1; i <= n; i++) printf "get,1,%d,\n", i; print "get" }' >"$folder/$n.csv"
done
./run sherman_replay </dev/null >/dev/null
for n in 100000 1000000; do
  start=$(date +%s%N)
  for _ in 1 2 3; do ./run sherman_replay <"$folder/$n.csv" >/dev/null || true; done
  echo "$n rows: $(( ($(date +%s%N) - start) / 3000000 )) ms"
done
built=crates/sherman_replay/out/sherman_replay
if [ -x /usr/bin/time ]; then
  /usr/bin/time -f '1000000 rows: %M KB at most' "$built" <"$folder/1000000.csv" >/dev/null || true
fi
