#!/usr/bin/env bash
# Are long random runs lawful, and do they meet what is rare? Gives worlds 200 random lists of 2,000 calls by 8 seats, asks
# the seats in a random order, and judges each book by `sh_map`'s judge. The settings go round: a pool with so few nodes that
# puts are full and posts are skipped; node versions of four bits, so that updates are worn; one compute server with few keys,
# where locks are handed over; and cached nodes. Tells how many of each it met, and fails where a book isn't lawful, a call
# didn't end, or one of them was met nowhere. The program is made, proved and built in a folder of its own.
set -eu
cd "$(dirname "$0")/.."
folder=$(mktemp -d)
trap 'rm -rf "$folder"' EXIT
cp -r crates crates.txt HANDLES "$folder/"
running=$folder/crates/long_run
mkdir -p "$running/src"
cat >"$running/src/main.rt" <<'PROGRAM'
//! Runs random lists of calls in random orders of turns, judges their books, and counts what they met.
#![tactic(auto)]

use sh_base::{Config, ConfigParts, Value};
use sh_map::{Call, Done, Reply, judge};
use sh_world::{Turn, World};
use std::alloc::{AllocError, Global};
use std::io;

// What was met.
#[derive(Clone, Copy)]
struct Met {
    lawful: u64,
    full: u64,
    worn: u64,
    part: u64,
    skipped: u64,
    handed: u64,
    again: u64,
    cached: u64,
}

// The number behind this one, of a generator by multiplication.
fn next_number(x: u64) -> u64 {
    x.wrapping_mul(6_364_136_223_846_793_005)
        .wrapping_add(1_442_695_040_888_963_407)
}

// The settings: few nodes; narrow versions; one compute server; cached nodes.
fn setting(kind: u64) -> ConfigParts {
    ConfigParts {
        servers: 2,
        chunks: if kind == 0 { 6 } else { 64 },
        chunk_nodes: 4,
        locks: if kind == 2 { 2 } else { 64 },
        leaf: 4,
        computes: if kind == 2 { 1 } else { 2 },
        seats: if kind == 2 { 8 } else { 4 },
        bound: 2,
        bits: if kind == 1 { 4 } else { 32 },
        rows: 8,
        cached: if kind == 3 { 4 } else { 0 },
        value_words: 1,
    }
}

// A random call: half of all are puts.
fn call_of(x: u64, keys: u64) -> Call {
    let key = (x >> 33) % keys.max(1) + 1;
    match x >> 61 {
        0..4 => Call::Put { key, value: Value::of(&[x >> 40]) },
        4 => Call::Get { key },
        5 => Call::Range { low: key, high: key + (x >> 20) % 50 },
        _ => Call::Del { key },
    }
}

// Gives the seat a call, where it may be given.
fn give(world: &mut World, seat: u32, call: Call) -> Result<(), AllocError> {
    if seat >= world.seats() || !call.in_range(world.setting()) || world.calls().len() > 1_000_000 {
        return Ok(());
    }
    world.give(seat, call)
}

// Asks the seats in a random order until all are idle, but for so many turns at most.
fn run(world: &mut World, from: u64) -> u64 {
    let mut x = from;
    let mut idle = 0u64;
    for _ in 0..20_000_000u64 {
        x = next_number(x);
        let seat = ((x >> 40) % 8) as u32;
        if seat < world.seats() {
            match world.turn(seat) {
                Turn::Idle => idle = idle.wrapping_add(1),
                _ => idle = 0,
            }
        }
        if idle > 200 {
            return x;
        }
    }
    x
}

fn count_reply(met: &mut Met, done: &Done) {
    match &done.reply {
        Reply::Full => met.full = met.full.wrapping_add(1),
        Reply::Worn { .. } => met.worn = met.worn.wrapping_add(1),
        Reply::Rows { upto } => {
            if let Call::Range { high, .. } = &done.call {
                if *upto < *high {
                    met.part = met.part.wrapping_add(1);
                }
            }
        }
        _ => {}
    }
}

fn count_seat(met: &mut Met, world: &World, seat: u32) {
    if seat < world.seats() {
        let tally = world.tally(seat);
        met.skipped = met.skipped.wrapping_add(tally.skipped_spent).wrapping_add(tally.skipped_worn);
        met.handed = met.handed.wrapping_add(tally.handed);
        met.again = met.again.wrapping_add(tally.again);
        met.cached = met.cached.wrapping_add(tally.from_cache);
    }
}

// One run: 2,000 calls, their order of turns, the judge.
fn one(alloc: Global, met: &mut Met, kind: u64, from: u64) -> Result<u64, AllocError> {
    let Ok(cfg) = Config::new(setting(kind)) else {
        return Ok(from);
    };
    let mut world = World::blank(alloc);
    world.lay(alloc, &cfg)?;
    let mut x = from;
    let keys = if kind == 1 { 3 } else { 300 };
    for _ in 0..2000 {
        x = next_number(x);
        give(&mut world, ((x >> 10) % 8) as u32, call_of(x, keys))?;
    }
    x = run(&mut world, x);
    let book = world.book(alloc)?;
    for done in book.dones.as_slice() {
        count_reply(met, done);
    }
    for seat in 0..8 {
        count_seat(met, &world, seat);
    }
    if book.dones.len() == 2000 && judge(alloc, book.log.as_slice(), book.dones.as_slice())?.is_none() {
        met.lawful = met.lawful.wrapping_add(1);
    }
    Ok(x)
}

fn all(alloc: Global) -> Result<Met, AllocError> {
    let mut met = Met { lawful: 0, full: 0, worn: 0, part: 0, skipped: 0, handed: 0, again: 0, cached: 0 };
    let mut x = 7u64;
    for run in 0..200u64 {
        x = one(alloc, &mut met, run % 4, x)?;
    }
    Ok(met)
}

fn main(rt: HostRuntime) -> io::Result<()> {
    match all(rt.alloc()) {
        Ok(met) => {
            println!(rt; "{} {} {} {}", met.lawful, met.full, met.worn, met.part)?;
            println!(rt; "{} {} {} {}", met.skipped, met.handed, met.again, met.cached)
        }
        Err(_) => println!(rt; "no memory"),
    }
}
PROGRAM
echo 'long_run: sh_base sh_map sh_world' >>"$folder/crates.txt"
git init -q "$folder"
(cd "$running" && rt run </dev/null >"$folder/log" 2>&1) || { tail -n 20 "$folder/log" >&2; exit 70; }
read -r -d '' lawful full worn part skipped handed again cached < <("$running/out/long_run"; printf '\0') || true
echo "$lawful of 200 runs of 2,000 calls are lawful; met: $full full, $worn worn, $part ranges in part, $skipped skipped posts, $handed handovers, $again READs read again, $cached calls from a cached node"
[ "$lawful" = 200 ] || exit 1
for count in "$full" "$worn" "$part" "$skipped" "$handed" "$again" "$cached"; do [ "$count" -gt 0 ] || exit 1; done
