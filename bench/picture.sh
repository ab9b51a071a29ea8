#!/usr/bin/env bash
# Is a picture checked in a time linear in its words? Makes the pictures of two pools, of 418,811 words and of 4,194,284,
# which is nearly the largest, all of whose nodes are leaves of four keys in one chain, and times their checks, and
# `cksum` of the same bytes; the second should take about ten times as long.
set -eu
cd "$(dirname "$0")/.."
folder=$(mktemp -d)
trap 'rm -rf "$folder"' EXIT
picture() { # chunks chunk_nodes
  perl -e '
    my ($chunks, $size) = @ARGV;
    my $nodes = $chunks * $size;
    my $most = ~0;
    print "SHERMAN1", pack("N*", 1, $chunks, $size, 1, 4, 1, 1, 0, 32, 1, 0, 1), pack("Q>*", 0, 1, $chunks, 0);
    for my $n (1 .. $nodes) {
      my $low = 10 * ($n - 1);
      my $last = $n == $nodes;
      print pack("Q>*", 1, 0, $low, $last ? $most : $low + 10, $last ? 0 : $n + 1, 0, (map { (1, $low + $_, $n, 1) } 1 .. 4), 1);
    }' "$1" "$2"
}
picture 131 139 >"$folder/small"
picture 776 235 >"$folder/large"
./run sherman_picture <crates/sherman_picture/stdin >/dev/null
for name in small large; do
  start=$(date +%s%N)
  for _ in 1 2 3; do ./run sherman_picture <"$folder/$name" >"$folder/verdict"; done
  check=$(( ($(date +%s%N) - start) / 3000000 ))
  start=$(date +%s%N)
  for _ in 1 2 3; do cksum <"$folder/$name" >/dev/null; done
  echo "$(stat -c %s "$folder/$name") bytes, $(cat "$folder/verdict"): $check ms; cksum $(( ($(date +%s%N) - start) / 3000000 )) ms"
done
