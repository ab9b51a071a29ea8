#!/usr/bin/env bash
# Does the judge take a time near linear in log and calls? It judges lawful books of 25,000 entries with 50,000 calls and
# of 500,000 with 1,000,000: puts, gets, deletes that find nothing and ranges. The second should take less than 20 times
# the processor time of the first, over 5,000 keys. Over half as many keys as entries the tree of keys grows as well, out
# of the processor's caches, and that tells too. The time is the least processor time of seven runs without the least of
# seven that only make the book: the least, since other work on the machine only adds; of user and system together,
# since the kernel splits short times between the two by sampling. The program is made, proved and built in a folder of
# its own.
set -eu
cd "$(dirname "$0")/.."
folder=$(mktemp -d)
trap 'rm -rf "$folder"' EXIT
mkdir -p "$folder/crates/judge_time/src"
cp -r crates/sh_base crates/sh_map "$folder/crates/"
printf 'sh_base:\nsh_map: sh_base\njudge_time: sh_base sh_map\n' >"$folder/crates.txt"
git init -q "$folder"
cat >"$folder/crates/judge_time/src/main.rt" <<'PROGRAM'
//! Makes a book of this many entries over this many keys, with twice as many calls, and judges it unless there is a
//! third word.
#![tactic(auto)]

use sh_base::Value;
use sh_map::{Call, Change, Done, Dones, Entry, Log, Reply, Row, Rows, judge};
use std::alloc::{AllocError, Global};
use std::io;

const STEP: u64 = 7919;

// The rest of a division, or 0 where there is none.
fn rest(n: u64, of: u64) -> u64 {
    n.checked_rem(of).unwrap_or(0)
}

// The key of an entry: each of `keys` keys once, and again in the same order.
fn key_of(entry: u64, keys: u64) -> u64 {
    rest(rest(entry, keys).wrapping_mul(STEP), keys).wrapping_add(1)
}

// The entry that last put a key, where one did, in a log of this length.
fn last_of(key: u64, back: u64, len: u64, keys: u64) -> Option<u64> {
    let place = rest(key.wrapping_sub(1).wrapping_mul(back), keys);
    let last = len.wrapping_sub(1);
    if place > last {
        return None;
    }
    Some(last.wrapping_sub(rest(last.wrapping_sub(place), keys)))
}

fn done(alloc: Global, n: u64, seat: u64, call: Call, reply: Reply, point: u64) -> Done {
    Done {
        n: u32::try_from(n).unwrap_or(0),
        seat: u32::try_from(seat).unwrap_or(0),
        call,
        reply,
        first: point,
        point,
        rows: Rows::new(alloc),
    }
}

// What the seat asks behind its put.
fn asked(alloc: Global, entry: u64, keys: u64, back: u64) -> Result<Done, AllocError> {
    let key = key_of(entry, keys);
    let len = entry.wrapping_add(1);
    let n = entry.wrapping_mul(2).wrapping_add(2);
    let seat = rest(entry, 8);
    if rest(entry, 4) == 0 {
        let call = Call::Del {
            key: key.wrapping_add(keys),
        };
        return Ok(done(alloc, n, seat, call, Reply::None, len));
    }
    if rest(entry, 4) == 1 {
        let high = key.wrapping_add(10).min(keys.wrapping_add(1));
        let call = Call::Range { low: key, high };
        let mut one = done(alloc, n, seat, call, Reply::Rows { upto: high }, len);
        for key in key..high {
            if let Some(word) = last_of(key, back, len, keys) {
                let value = Value::of(&[word]);
                one.rows.push(Row { key, value })?;
            }
        }
        return Ok(one);
    }
    Ok(done(
        alloc,
        n,
        seat,
        Call::Get { key },
        Reply::Some(Value::of(&[entry])),
        len,
    ))
}

fn book(alloc: Global, entries: u64, keys: u64) -> Result<(Log, Dones), AllocError> {
    let mut back = 1;
    for word in 1..keys {
        if rest(word.wrapping_mul(STEP), keys) == 1 {
            back = word;
        }
    }
    let mut log = Vec::new(alloc);
    let mut dones = Vec::new(alloc);
    for entry in 0..entries {
        let key = key_of(entry, keys);
        let value = Value::of(&[entry]);
        let old = if entry < keys {
            None
        } else {
            Some(Value::of(&[entry.wrapping_sub(keys)]))
        };
        let reply = match old {
            Some(old) => Reply::Some(old),
            None => Reply::None
        };
        let seat = rest(entry, 8);
        log.push(Entry {
            seat: u32::try_from(seat).unwrap_or(0),
            change: Change::Put { key, value },
            old,
        })?;
        dones.push(done(
            alloc,
            entry.wrapping_mul(2).wrapping_add(1),
            seat,
            Call::Put { key, value },
            reply,
            entry,
        ))?;
        dones.push(asked(alloc, entry, keys, back)?)?;
    }
    Ok((log, dones))
}

// The number that a word says.
fn number(words: &[String], place: usize) -> Option<u64> {
    words.get(place)?.parse::<u64>().ok()
}

fn main(rt: HostRuntime) -> io::Result<()> {
    let alloc = rt.alloc();
    let words: Vec<String> = std::env::args(&rt)?.collect(alloc)?;
    let Some(entries) = number(&words, 1) else {
        return Ok(());
    };
    let (log, dones) = book(alloc, entries, number(&words, 2).unwrap_or(1))?;
    if words.len() <= 3 {
        match judge(alloc, &log, &dones)? {
            None => println!(rt; "lawful")?,
            Some(misfit) => println!(rt; "{misfit:?}")?,
        }
    }
    Ok(())
}
PROGRAM
(cd "$folder/crates/judge_time" && rt run </dev/null >"$folder/log" 2>&1) || { tail -n 20 "$folder/log" >&2; exit 70; }
# The least processor time of seven runs with these words, in milliseconds.
run_time() {
  local TIMEFORMAT='%U %S' least=999999 user system
  for _ in 1 2 3 4 5 6 7; do
    read -r user system < <({ time "$folder/crates/judge_time/out/judge_time" "$@" >"$folder/verdict"; } 2>&1)
    [ $# -eq 3 ] || [ "$(cat "$folder/verdict")" = lawful ] || { cat "$folder/verdict" >&2; exit 1; }
    user=$((10#${user/./} + 10#${system/./}))
    least=$((user < least ? user : least))
  done
  echo $least
}
judge_time() {
  local whole making
  whole=$(run_time "$1" "$2") || exit 1
  making=$(run_time "$1" "$2" make) || exit 1
  echo $((whole - making))
}
for keys in "5000 5000" "12500 250000"; do
  few=$(judge_time 25000 "${keys% *}")
  many=$(judge_time 500000 "${keys#* }")
  echo "${keys% *} and ${keys#* } keys: 50,000 calls $few ms, 1,000,000 calls $many ms, $((many / few)).$((many * 10 / few % 10)) times"
done
