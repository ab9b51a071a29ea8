#!/usr/bin/env bash
# Do workers build a pool beside each other, and what does building cost next to copying? Of 700,000 rows it builds the pool
# with one worker and with four, and copies its words, eleven times each, and tells the least time of each in microseconds:
# the least, since other work on the machine only adds. Freed memory isn't used again, so that each pays alike for new pages,
# which take most of a copy's time. Four workers on four processors should be 1.8 times as fast as one, and building by one
# should take at most twice as long as copying. The program is made, proved and built in a folder.
set -eu
cd "$(dirname "$0")/.."
folder=$(mktemp -d)
trap 'rm -rf "$folder"' EXIT
cp -r crates crates.txt HANDLES "$folder/"
crate=$folder/crates/bulk_time
mkdir -p "$crate/src" "$crate/proofs/many_rows"
cat >"$crate/src/main.rt" <<'PROGRAM'
//! Times the building of a large pool by one worker and by four, and the copying of its words: the least of eleven, in
//! microseconds.
#![tactic(auto)]

ghost use Rattle.std.specs.Prelude.{IfOk};
ghost use Rattle.sh_base.specs.Parts.{parts_of};
ghost use Rattle.sh_bulk.specs.Nodes.{HaveValues};

use sh_base::{Config, ConfigParts, Value};
use sh_bulk::{NoHold, build};
use sh_map::Row;
use std::alloc::{AllocError, Global};
use std::io;
use std::time::Instant;

// A pool of 14,752 nodes with leaves of 64 entries: room for these rows.
fn setting() -> Config {
    let parts = ConfigParts {
        servers: 1,
        chunks: 461,
        leaf: 64,
        ..ConfigParts::default()
    };
    Config::new(parts).unwrap_or_default()
}

// So many rows, where values have one word.
fn many_rows(alloc: Global, cfg: &Config) -> Result<Vec<Row>, AllocError>
    ensures { IfOk result (λ v. HaveValues (parts_of cfg.now) v.items) }
{
    let mut rows = Vec::new(alloc);
    if cfg.value_words() != 1 {
        return Ok(rows);
    }
    for i in 0..700_000u64 {
        rows.push(Row {
            key: 3 * i + 1,
            value: Value::of(&[i]),
        })?;
    }
    Ok(rows)
}

fn main(rt: HostRuntime) -> io::Result<()> {
    let alloc = rt.alloc();
    let cfg = setting();
    let rows = many_rows(alloc, &cfg)?;
    let (mut one, mut four, mut copied) = (u128::MAX, u128::MAX, u128::MAX);
    for _ in 0..11 {
        let start = Instant::now(&rt)?;
        let Ok(words) = build(&rt, alloc, &cfg, &rows, 1, &NoHold) else {
            return Ok(());
        };
        one = one.min(Instant::now(&rt)?.duration_since(start).as_micros());
        let start = Instant::now(&rt)?;
        let copy = words.to_vec(alloc)?;
        copied = copied.min(Instant::now(&rt)?.duration_since(start).as_micros());
        drop(copy);
        drop(words);
        let start = Instant::now(&rt)?;
        let Ok(words) = build(&rt, alloc, &cfg, &rows, 4, &NoHold) else {
            return Ok(());
        };
        four = four.min(Instant::now(&rt)?.duration_since(start).as_micros());
        drop(words);
    }
    println!(rt; "one worker {one} us, four workers {four} us, copying {copied} us")
}
PROGRAM
cat >"$crate/proofs/many_rows/Invariants.antt" <<'PROOF'
use Rattle.sh_base.specs.Parts.{parts_of}
use Rattle.sh_bulk.specs.Nodes.{HaveValues}
use Rattle.bulk_time.proofs.many_rows.Given as goal

abbrev pub invariant-loop-i : goal.invariant-loop-i
invariant-loop-i l = HaveValues (parts_of l.cfg) l.rows.items
PROOF
cat >"$crate/proofs/many_rows/Answers.antt" <<'PROOF'
use Rattle.std.proofs.Common.{◌∷◌, [], length, ap, sym, subst, arith}
use Rattle.sh_logic.proofs.Lists.{all_join}
use Rattle.sh_bulk.specs.Nodes.{HaveValues}
use Rattle.bulk_time.proofs.many_rows.Goals as goal

pub loop-i-preserved : goal.loop-i-preserved
loop-i-preserved c = subst (HaveValues c.args.cfg.now.parts) (sym c.in_ok-push.ensures.items) (all_join _ c.loop-i.rows.items (_ ∷ []) c.loop-i.invariant (omega (arith, ap length c.of.ensures, c.value_words.ensures, c.if-value_words-ne1.false), tt))
PROOF
echo 'bulk_time: sh_logic sh_base sh_bulk sh_map' >>"$folder/crates.txt"
git init -q "$folder"
(cd "$crate" && rt run </dev/null >"$folder/log" 2>&1) || { tail -n 20 "$folder/log" >&2; exit 70; }
MALLOC_MMAP_THRESHOLD_=1048576 "$crate/out/bulk_time"
