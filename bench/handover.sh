#!/usr/bin/env bash
# What does a hand-over between two threads cost? A program in a scratch repository takes turns at one cell, 20,000 in one
# thread and then as many in each of two. Each thread has two chairs, and draws with one before it leaves the turn of the
# other: so every turn is handed on with a value, and between two threads nearly always to the other one. The program is
# proved and built, which takes some minutes, and run 200 times. Other work on the machine only adds to the times, so the
# least one counts, of the runs in which nine turns of ten were handed on by the other thread.
set -eu
top=$(cd "$(dirname "$0")/.." && pwd)
folder=$(mktemp -d)
trap 'rm -rf "$folder"' EXIT
cd "$folder"
mkdir -p crates/handover/src crates/handover/proofs/await_turn crates/handover/proofs/take_turns crates/sh_local
cp -r "$top"/crates/sh_local/src "$top"/crates/sh_local/specs "$top"/crates/sh_local/proofs crates/sh_local/
cp "$top/HANDLES" .
printf 'sh_local: atomic_table\nhandover: sh_local\n' >crates.txt

cat >crates/handover/src/main.rt <<'END'
//! Turns at one cell, by one thread and by two.
#![tactic(auto)]

ghost use Rattle.std.specs.Prelude.{◌≡◌, None, Some, true, false};
ghost use Rattle.sh_local.specs.Chairs.{HasTicketFor, IsAt};

use sh_local::{Carried, Cells, Chair, Look};
use std::hint::spin_loop;
use std::io;
use std::sync::Wait;
use std::thread::{Threads, join};
use std::time::Instant;

const ROUNDS: u64 = 10_000;

// Which thread left it.
struct Baton {
    from: u64,
}

impl Carried for Baton {
    type Key = ();

    ghost fits = { λ key cell x. Unit {0} };
}

fn await_turn<R: Wait>(rt: &R, cells: &Cells<Baton>, chair: &mut Chair<Baton>) -> Option<Baton>
    requires at { IsAt cells.now chair.old 0 }
    requires waits { HasTicketFor 0 false chair.old.view }
    ensures at { IsAt cells.now chair.new 0 }
    ensures turn { HasTicketFor 0 true chair.new.view }
{
    for _ in rt.forever() {
        match cells.look(chair, 0) {
            Look::Wait(_) => spin_loop(),
            Look::Turn(value) => return value,
        }
    }
    unreachable!()
}

// A turn of the first chair, in which the second draws: 1 where it was handed on by another thread.
fn take_turn<R: Wait>(
    rt: &R,
    cells: &Cells<Baton>,
    me: u64,
    first: &mut Chair<Baton>,
    second: &mut Chair<Baton>,
) -> u64
    requires first { IsAt cells.now first.old 0 × HasTicketFor 0 false first.old.view }
    requires second { IsAt cells.now second.old 0 × (second.old.view.ticket ≡ None) }
    ensures first { IsAt cells.now first.new 0 × (first.new.view.ticket ≡ None) }
    ensures second { IsAt cells.now second.new 0 × HasTicketFor 0 false second.new.view }
{
    let met = match await_turn(rt, cells, first) {
        None => 0,
        Some(Baton { from }) => u64::from(from != me),
    };
    cells.draw(second, 0);
    if cells.waiting(first, 0) > 0 {
        cells.leave(first, 0, Some(Baton { from: me }));
    } else {
        cells.leave(first, 0, None);
    }
    met
}

// So many rounds of two turns, and how many turns were handed on by another thread.
fn take_turns<R: Wait>(
    rt: &R,
    cells: &Cells<Baton>,
    me: u64,
    pair: (Chair<Baton>, Chair<Baton>),
) -> ((Chair<Baton>, Chair<Baton>), u64)
    requires { IsAt cells.now pair.0 0 × (pair.0.view.ticket ≡ None) × IsAt cells.now pair.1 0 × (pair.1.view.ticket ≡ None) }
    ensures { IsAt cells.now result.0.0 0 × (result.0.0.view.ticket ≡ None) × IsAt cells.now result.0.1 0 × (result.0.1.view.ticket ≡ None) }
{
    let (mut one, mut two) = pair;
    let mut met = 0u64;
    cells.draw(&mut one, 0);
    for _ in 0..ROUNDS {
        met = met.wrapping_add(take_turn(rt, cells, me, &mut one, &mut two));
        met = met.wrapping_add(take_turn(rt, cells, me, &mut two, &mut one));
    }
    match await_turn(rt, cells, &mut one) {
        None => {}
        Some(Baton { from: _ }) => {}
    }
    cells.leave(&mut one, 0, None);
    ((one, two), met)
}

fn take_turns_beside<R: Threads + Wait + Sync>(
    rt: &R,
    cells: &Cells<Baton>,
    left: (Chair<Baton>, Chair<Baton>),
    right: (Chair<Baton>, Chair<Baton>),
) -> (
    (Chair<Baton>, Chair<Baton>),
    (Chair<Baton>, Chair<Baton>),
    u64,
)
    requires left { IsAt cells.now left.0 0 × (left.0.view.ticket ≡ None) × IsAt cells.now left.1 0 × (left.1.view.ticket ≡ None) }
    requires right { IsAt cells.now right.0 0 × (right.0.view.ticket ≡ None) × IsAt cells.now right.1 0 × (right.1.view.ticket ≡ None) }
    ensures left { IsAt cells.now result.0.0 0 × (result.0.0.view.ticket ≡ None) × IsAt cells.now result.0.1 0 × (result.0.1.view.ticket ≡ None) }
    ensures right { IsAt cells.now result.1.0 0 × (result.1.0.view.ticket ≡ None) × IsAt cells.now result.1.1 0 × (result.1.1.view.ticket ≡ None) }
{
    let ((left, met), (right, met_too)) = join(
        rt,
        || -> ((Chair<Baton>, Chair<Baton>), u64)
            requires { IsAt cells.now left.0 0 × (left.0.view.ticket ≡ None) × IsAt cells.now left.1 0 × (left.1.view.ticket ≡ None) }
            ensures { IsAt cells.entry.now result.0.0 0 × (result.0.0.view.ticket ≡ None) × IsAt cells.entry.now result.0.1 0 × (result.0.1.view.ticket ≡ None) }
        { take_turns(rt, cells, 1, left) },
        || -> ((Chair<Baton>, Chair<Baton>), u64)
            requires { IsAt cells.now right.0 0 × (right.0.view.ticket ≡ None) × IsAt cells.now right.1 0 × (right.1.view.ticket ≡ None) }
            ensures { IsAt cells.entry.now result.0.0 0 × (result.0.0.view.ticket ≡ None) × IsAt cells.entry.now result.0.1 0 × (result.0.1.view.ticket ≡ None) }
        { take_turns(rt, cells, 2, right) },
    );
    (left, right, met.wrapping_add(met_too))
}

fn main(rt: HostRuntime) -> io::Result<()> {
    let (mut cells, mut chairs) = Cells::<Baton>::new(rt.alloc(), 4, 1, ())?;
    let Some(one) = chairs.pop() else {
        unreachable!()
    };
    let Some(two) = chairs.pop() else {
        unreachable!()
    };
    let Some(three) = chairs.pop() else {
        unreachable!()
    };
    let Some(four) = chairs.pop() else {
        unreachable!()
    };
    let start = Instant::now(&rt);
    let (left, _) = take_turns(&rt, &cells, 1, (one, two));
    let middle = Instant::now(&rt);
    let (left, right, met) = take_turns_beside(&rt, &cells, left, (three, four));
    let end = Instant::now(&rt);
    chairs.push_reserved(left.0);
    chairs.push_reserved(left.1);
    chairs.push_reserved(right.0);
    chairs.push_reserved(right.1);
    cells.gather(chairs);
    cells.free();
    let middle = middle?;
    let alone = middle.duration_since(start?).as_nanos() / 20_000;
    let beside = end?.duration_since(middle).as_nanos() / 40_000;
    println!(rt; "{alone} {beside} {met}")?;
    Ok(())
}
END

cat >crates/handover/proofs/await_turn/Invariants.antt <<'END'
use Rattle.std.proofs.Common.{false}
use Rattle.sh_local.specs.Chairs.{IsAt, HasTicketFor}
use Rattle.handover.proofs.await_turn.Given as goal

abbrev pub invariant-loop : goal.invariant-loop
invariant-loop g l = IsAt l.cells l.chair 0 × HasTicketFor 0 false l.chair.view
END

cat >crates/handover/proofs/take_turns/Invariants.antt <<'END'
use Rattle.std.proofs.Common.{◌≡◌, None, false}
use Rattle.sh_local.specs.Chairs.{IsAt, HasTicketFor}
use Rattle.handover.proofs.take_turns.Given as goal

abbrev pub invariant-loop : goal.invariant-loop
invariant-loop g l = IsAt l.cells l.one 0 × HasTicketFor 0 false l.one.view × IsAt l.cells l.two 0 × (l.two.view.ticket ≡ None)
END

cd crates/handover
rt run >run.log 2>&1 || { tail -n 20 run.log; exit 1; }
for _ in $(seq 200); do ./out/handover; done | awk '
  !runs || $1 < alone { alone = $1 }
  { runs++ }
  $3 > 36000 && (!handed || $2 < beside) { beside = $2 }
  $3 > 36000 { handed++ }
  END {
    print "a turn handed on in one thread: " alone " ns"
    if (handed) print "a turn handed on between two threads: " beside " ns (" handed " of " runs " runs)"
    else print "no run of " runs " handed on between two threads: the machine is too busy"
  }'
