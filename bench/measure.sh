# Sourced by bench/driver.sh, which measures crates through a program of its own.

# Copies the crates to out/bench/NAME, with a crate `measure` over the crates named that takes the place of
# `replay_laws` and of those that stand on it, and sets `copy` to that folder. Of an earlier copy only what was proved
# stays. With a third word the crates are those of that folder.
copy_crates() {
    local from=${3:-.}
    copy=out/bench/$1
    mkdir -p "$copy/crates/measure"
    find "$copy"/crates/* -mindepth 1 -maxdepth 1 ! -name out -exec rm -r {} +
    mkdir "$copy/crates/measure/src"
    cp HANDLES "$copy"
    sed -e "s/^replay_laws:.*/measure: $2/" -e '/^[a-z_]*:.* replay_laws\b/d' -e '/^station_top:/d' -e '/^station_program:/d' -e '/^[a-z_]*_tests:/d' "$from/crates.txt" >"$copy/crates.txt"
    local name
    for name in $(sed -n 's/^\([a-z_]*\):.*/\1/p' "$copy/crates.txt"); do
        [ "$name" = measure ] || tar -C "$from/crates" --exclude=out -c "$name" | tar -C "$copy/crates" -x
    done
}

# Writes a file of the proof of a function of `measure`.
prove() {
    mkdir -p "$copy/crates/measure/proofs/$1"
    cat >"$copy/crates/measure/proofs/$1/$2.antt"
}

# Adds to `measure` the module `counter`, a keeper of a dump that counts its records and keeps none.
add_counter() {
    cat >"$copy/crates/measure/src/counter.rt" <<'COUNTER'
ghost use Rattle.std.specs.Prelude.{◌≡◌};
ghost use Rattle.archive_record.specs.Reading.{stamp_in};
ghost use Rattle.station_base.specs.LastStamp.{last_stamp};

use archive_record::Rec52;
use dmpaft_driver::{Keeper, Kept};
use station_base::Stamp;

#[derive(Drop)]
pub struct Counter {
    pub last: Option<Stamp>,
    pub kept: u32,
}

impl Keeper for Counter {
    ghost ledger = { record {
      last = λ k. k.last;
      room = λ k. 513;
      keeps = λ k steps l. Unit {0};
      keeps_none = λ k. tt;
      keeps_joins = λ k l m first later one two. tt;
    } };

    fn keep(&mut self, rows: &[Rec52]) -> Kept {
        self.last = last_of(rows, self.last);
        self.kept = self.kept.saturating_add(rows.len() as u32);
        Kept::Done
    }
}

// The stamp of the last record, or the one before where there is none.
fn last_of(rows: &[Rec52], before: Option<Stamp>) -> Option<Stamp>
    ensures { result ≡ last_stamp stamp_in rows.now before }
{
    let mut last = before;
    for row in rows {
        last = Some(row.stamp());
    }
    last
}
COUNTER
    prove counter/last_of Invariants <<'PROOF'
use Rattle.std.proofs.Common.{◌≡◌, drop}
use Rattle.station_base.specs.LastStamp.{last_stamp}
use Rattle.archive_record.specs.Reading.{stamp_in}
use Rattle.measure.proofs.counter.last_of.Given as goal

abbrev pub invariant-loop-row : goal.invariant-loop-row
invariant-loop-row l = last_stamp stamp_in (drop l.row-index l.rows) l.last ≡ last_stamp stamp_in l.rows l.initial.last
PROOF
}
