#!/usr/bin/env bash
# Is a printed replay judged in a time near linear in its lines, and in how much memory? Times printed replays of 50,000 and
# of 400,000 puts, gets and deletes by 8 seats over a fourth as many keys. The second has eight times the lines, and its
# keys leave the processor's caches; it should take less than fourteen times as long. The program takes at most 16,777,216
# bytes, so 1,000,000 calls are judged by one of its own, made, proved and built here, which reads more; they should take
# less than three seconds. The time is the least of five runs, since other work on the machine only adds. A call takes some
# 400 bytes, its line with it.
set -eu
cd "$(dirname "$0")/.."
folder=$(mktemp -d)
trap 'rm -rf "$folder"' EXIT
cp -r crates crates.txt HANDLES "$folder/"
judging=$folder/crates/judge_more
mkdir -p "$judging/src"
cat >"$judging/src/main.rt" <<'PROGRAM'
//! Judges the printed replay on standard input, of up to 2^32 bytes, and tells whether it is lawful.
#![tactic(auto)]

use sh_judge::{Finding, judge_text};
use sh_port::{StdSource, read_up_to};
use std::io;

fn main(rt: HostRuntime) -> io::Result<()> {
    let alloc = rt.alloc();
    let mut source = StdSource::new(rt.reader());
    let Ok(bytes) = read_up_to(alloc, &mut source, 4_294_967_296) else {
        return Ok(());
    };
    match judge_text(alloc, &bytes, 1) {
        Ok(Finding::Lawful { calls, entries }) => println!(rt; "lawful,{calls},{entries}"),
        Ok(_) => println!(rt; "not lawful"),
        Err(_) => println!(rt; "no memory"),
    }
}
PROGRAM
echo 'judge_more: sh_judge sh_port' >>"$folder/crates.txt"
git init -q "$folder"
(cd "$judging" && rt run </dev/null >"$folder/log" 2>&1) || { tail -n 20 "$folder/log" >&2; exit 70; }
for n in 50000 400000 1000000; do
  awk -v n="$n" 'BEGIN {
    for (i = 1; i <= n; i++) {
      seat = i % 8; key = 1 + (i * 7919) % int(n / 4); had = key in map; old = had ? map[key] : ""; word = had ? "some" : "none"
      if (i % 4 < 2) { printf "%d,%d,put,%d,%d,%s,%s,%d\n", i, seat, key, i, word, old, point; map[key] = i; point++ }
      else if (i % 4 < 3) printf "%d,%d,get,%d,,%s,%s,%d\n", i, seat, key, word, old, point
      else { printf "%d,%d,del,%d,,%s,%s,%d\n", i, seat, key, word, old, point; if (had) { delete map[key]; point++ } }
    }
    for (key in map) { keys++; sum += map[key] }
    printf "end,%d,%d,%.0f\n", n, keys, sum
  }' >"$folder/$n.txt"
done
./run sherman_judge <"$folder/50000.txt"
for n in 50000 400000 1000000; do
  built=crates/sherman_judge/out/sherman_judge
  if [ "$n" -gt 400000 ]; then built=$judging/out/judge_more; fi
  least=
  for _ in 1 2 3 4 5; do
    start=$(date +%s%N)
    "$built" <"$folder/$n.txt" >"$folder/found"
    took=$((($(date +%s%N) - start) / 1000000))
    if [ -z "$least" ] || [ "$took" -lt "$least" ]; then least=$took; fi
  done
  echo "$n calls, $(wc -c <"$folder/$n.txt") bytes: $least ms, $(cat "$folder/found")"
done
if [ -x /usr/bin/time ]; then
  /usr/bin/time -f '400000 calls: %M KB at most' crates/sherman_judge/out/sherman_judge <"$folder/400000.txt" >/dev/null
fi
