# How many turns does a sheet take? `count_turns WORDS <SHEET` tells it, and how many of the sheet's calls began at a cached
# node, by a program that gives a world the same calls. It is made, proved and built in a folder:
# `count_turns_in FOLDER`, at the repository's top.
count_turns_in() {
  counting=$1/crates/count_turns
  cp -r crates crates.txt HANDLES "$1/"
  mkdir -p "$counting/src"
  cat >"$counting/src/main.rt" <<'PROGRAM'
//! Gives a world the calls of the sheet on standard input, in the setting that the words say, asks its seats in rounds
//! until all are idle, and tells how many turns they took, and how many of the calls began at a cached node.
#![tactic(auto)]

use sh_map::Call;
use sh_options::read_words;
use sh_port::{StdSource, read_all};
use sh_sheet::{Item, Mode, read_sheet};
use sh_world::{Turn, World};
use std::alloc::{AllocError, Global};
use std::io;

// Gives the seat a call, where it may be given.
fn give(world: &mut World, seat: u32, call: Call) -> Result<(), AllocError> {
    if seat >= world.seats() || !call.in_range(world.setting()) || world.calls().len() > 1_000_000 {
        return Ok(());
    }
    world.give(seat, call)
}

// A round of all seats, and how many took a turn.
fn round(world: &mut World) -> u64 {
    let mut turns = 0u64;
    for seat in 0..64 {
        if seat < world.seats() {
            match world.turn(seat) {
                Turn::Idle => {}
                _ => turns = turns.wrapping_add(1),
            }
        }
    }
    turns
}

// How many calls began at a cached node.
fn from_cache(world: &World) -> u64 {
    let mut calls = 0u64;
    for seat in 0..64 {
        if seat < world.seats() {
            calls = calls.wrapping_add(world.tally(seat).from_cache);
        }
    }
    calls
}

// The world that has served the sheet, and how many turns that took.
fn run(alloc: Global, words: &[&str], bytes: &[u8]) -> Result<(World, u64), AllocError> {
    let mut world = World::blank(alloc);
    let Ok(order) = read_words(alloc, words, Mode::Replay) else {
        return Ok((world, 0));
    };
    let Ok(sheet) = read_sheet(alloc, bytes, Mode::Replay, &order.cfg) else {
        return Ok((world, 0));
    };
    world.lay(alloc, &order.cfg)?;
    for item in sheet.as_slice() {
        if let Item::Ask { seat, call } = item {
            give(&mut world, *seat, *call)?;
        }
    }
    let mut turns = 0u64;
    for _ in 0..u64::MAX {
        let made = round(&mut world);
        if made == 0 {
            return Ok((world, turns));
        }
        turns = turns.wrapping_add(made);
    }
    Ok((world, turns))
}

fn main(rt: HostRuntime) -> io::Result<()> {
    let alloc = rt.alloc();
    let args: Vec<String> = std::env::args(&rt)?.collect(alloc)?;
    let mut words = Vec::with_capacity(alloc, args.len())?;
    for arg in args.iter().skip(1) {
        words.push(arg.as_str())?;
    }
    let mut source = StdSource::new(rt.reader());
    let Ok(bytes) = read_all(alloc, &mut source) else {
        return Ok(());
    };
    match run(alloc, words.as_slice(), &bytes) {
        Ok((world, turns)) => println!(rt; "{turns} {}", from_cache(&world))?,
        Err(_) => println!(rt; "no memory")?,
    }
    Ok(())
}
PROGRAM
  echo 'count_turns: sh_map sh_options sh_port sh_sheet sh_world' >>"$1/crates.txt"
  git init -q "$1"
  (cd "$counting" && rt run </dev/null >"$1/log" 2>&1) || { tail -n 20 "$1/log" >&2; exit 70; }
}
count_turns() {
  "$counting/out/count_turns" "$@"
}
