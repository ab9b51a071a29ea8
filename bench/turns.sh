#!/usr/bin/env bash
# Does a call cost the same however long the log is? Times a sheet of 10,000 puts and gets of 16 keys, and one of 100,000;
# the second should take less than 12 times as long.
set -eu
cd "$(dirname "$0")/.."
sheet() {
  awk -v n="$1" 'BEGIN { for (i = 1; i <= n; i++) if (i % 2) printf "put,0,%d,%d\n", 1 + int(i / 2) % 16, i; else printf "get,0,%d,\n", 1 + int(i / 2) % 16 }'
}
folder=$(mktemp -d)
trap 'rm -rf "$folder"' EXIT
sheet 10000 >"$folder/10000.csv"
sheet 100000 >"$folder/100000.csv"
./run sherman_replay <"$folder/10000.csv" >/dev/null
for n in 10000 100000; do
  start=$(date +%s%N)
  for _ in 1 2 3; do ./run sherman_replay <"$folder/$n.csv" >/dev/null; done
  echo "$n calls: $(( ($(date +%s%N) - start) / 3000000 )) ms"
done
