#!/usr/bin/env bash
# Measures the driver of a dump by a proved program over a link in memory that keeps the bytes of 512 pages, beside the
# driver as it was before it became a machine that is stepped, over the crates of its own commit. It counts the
# instructions by callgrind, and the two take turns at the processor's time, whose medians differ by what is repeated.
# It prints both for one page of each, and needs valgrind. It is no test.
set -eu
cd "$(dirname "$0")/.."
. bench/measure.sh
# The last commit before the driver was a machine that is stepped.
BEFORE=ed16124
CRATES='causes station_base archive_record serial_link station_outside dmpaft_driver'

# Proves and builds the program over the crates of `copy`.
build() {
    cat >"$copy/crates/measure/src/main.rt" <<'PROGRAM'
//! `FILE ..` takes the pages of a file by a dump as often as there are further words, and prints how many were taken.
#![tactic(auto)]

ghost use Rattle.std.specs.Prelude.{◌≤◌, length};

mod counter;

use causes::raised;
use counter::Counter;
use dmpaft_driver::{Tally, dump};
use serial_link::{Connected, Link, Recv, Sent, Side};
use std::{env, fs, io};

// What each of the first messages is answered by, one behind another: LF CR, a code, a code and a header.
const FIRST: [usize; 3] = [2, 3, 10];

const PAGE: usize = 267;

// A link that answers the n-th message by the bytes up to its end.
#[derive(Drop)]
struct PagesLink {
    bytes: Vec<u8>,
    messages: usize,
    at: usize,
    quiets: u64,
    faults: u64,
}

impl PagesLink {
    // Up to here the bytes are in flight.
    fn end(&self) -> usize
        ensures { result ≤ length self.now.bytes.items }
    {
        let end = match self.messages {
            0 => 0,
            1 => FIRST[0],
            2 => FIRST[1],
            more => FIRST[2].saturating_add(more.saturating_sub(3).saturating_mul(PAGE)),
        };
        end.min(self.bytes.len())
    }
}

impl Link for PagesLink {
    ghost use Rattle.station_outside.specs.Untold.{untold};

    ghost traffic = { untold (λ link. link.faults) (λ link. link.quiets) };

    fn connect(&mut self, _side: Side, _address: &str) -> Connected {
        Connected::Done
    }

    fn send(&mut self, _bytes: &[u8]) -> Sent {
        self.messages = self.messages.saturating_add(1);
        Sent::Done
    }

    fn recv(&mut self, buf: &mut [u8]) -> Recv {
        let end = self.end();
        if end <= self.at {
            self.quiets = raised(self.quiets);
            return Recv::Quiet;
        }
        let count = buf.len().min(end - self.at);
        buf[..count].copy_from_slice(&self.bytes[self.at..self.at + count]);
        self.at += count;
        Recv::Got(count)
    }
}

// One dump of all pages.
fn take_all(link: &mut PagesLink) -> u32 {
    link.messages = 0;
    link.at = 0;
    let mut counter = Counter {
        last: None,
        kept: 0,
    };
    let mut tally = Tally::default();
    let _ = dump(link, None, &mut counter, &mut tally);
    tally.pages
}

fn main(rt: HostRuntime) -> io::Result<()> {
    let mut words = env::args(&rt)?.skip(1);
    let Some(name) = words.next() else {
        return Ok(());
    };
    let bytes = fs::read(&rt, &name)?;
    let mut link = PagesLink {
        bytes,
        messages: 0,
        at: 0,
        quiets: 0,
        faults: 0,
    };
    let mut pages = 0u64;
    for _word in words {
        pages = pages.saturating_add(u64::from(take_all(&mut link)));
    }
    println!(rt; "{pages}")
}
PROGRAM
    prove PagesLinkLink/send Answers <<'PROOF'
use Rattle.std.proofs.Common.{refl, rules}
use Rattle.serial_link.specs.Talk.{message}
use Rattle.station_outside.proofs.Talking.{adds_said}
use Rattle.measure.proofs.PagesLinkLink.send.Goals as goal

pub returns : goal.returns
returns c = record {
  talk = (message c.args._bytes.now, refl, adds_said (λ link. link.faults) (λ link. link.quiets) c.args.self.now _ c.args._bytes.now refl);
  fault = search rules;
  shortage = search rules;
  still = search rules;
}
PROOF
    prove PagesLinkLink/recv Answers <<'PROOF'
use Rattle.std.proofs.Common.{drop, refl, rules, arith, length-append, length-drop}
use Rattle.serial_link.specs.declared.link.Recv.TheVariants as recv
use Rattle.station_outside.proofs.Talking.{adds_received}
use Rattle.measure.proofs.PagesLinkLink.recv.Goals as goal

pub returns : goal.returns
returns c = record {
  within = (
    omega (arith, c.requires, c.if-end-self.false, c.min-count.ensures),
    omega (arith, c.requires, c.if-end-self.false, c.min-count.ensures, c.copy_from_slice.ensures.len,
    length-append c.copy_from_slice.new.self (drop c.min-count.result c.args.buf.now), length-drop c.min-count.result c.args.buf.now),
  );
  talk = adds_received (λ link. link.faults) (λ link. link.quiets) c.args.self.now _ (recv.Got c.min-count.result) _
      (λ quiet. absurd cc) (λ loud. refl);
  fault = search rules;
  quiet = search rules;
  shortage = search rules;
  still = search rules;
}
PROOF
    add_counter
    (cd "$copy/crates/measure" && rt run -- >/dev/null)
}

tree=$(mktemp -d)
trap 'rm -r "$tree"' EXIT
git archive "$BEFORE" crates crates.txt | tar -C "$tree" -x
copy_crates driver_before "$CRATES" "$tree"
build
copy_crates driver "$CRATES"
build
PYTHONPATH=bench:tools/checks python3 - out/bench/driver_before out/bench/driver <<'MEASURE'
import binascii
import statistics
import sys
from datetime import datetime, timedelta

import make_pages
import runs

PAGES = 512
TURNS = 5
MORE = 1_000
COUNTED = 10
before, now = (f'{folder}/crates/measure/out/measure' for folder in sys.argv[1:])
first = datetime(2024, 1, 1)
slots = [make_pages.slot(f'{first + timedelta(minutes=n):%Y-%m-%d %H:%M} outTemp=650') for n in range(5 * PAGES)]
header = bytes([PAGES % 256, PAGES // 256, 0, 0])
path = f'{sys.argv[2]}/pages'
with open(path, 'wb') as file:
    file.write(b'\n\r\x06\x06' + header + binascii.crc_hqx(header, 0).to_bytes(2, 'big'))
    for n in range(PAGES):
        file.write(make_pages.page(n, slots[5 * n:5 * n + 5]))


def way_of(program, times):
    return runs.Way('dump', [program, path] + ['again'] * times)


def seconds(program, times):
    way = way_of(program, times)
    said = runs.output(way).decode()
    assert said == f'{PAGES * times}\n', said
    return runs.run(way).processor


taken = {program: {1: [], 1 + MORE: []} for program in (before, now)}
for turn in range(TURNS):
    for program, of in taken.items():
        for times, all_seconds in of.items():
            all_seconds.append(seconds(program, times))
for name, program in ('before', before), ('now', now):
    once, more = (statistics.median(of) for of in taken[program].values())
    counted = runs.by_callgrind(way_of(program, 1 + COUNTED)) - runs.by_callgrind(way_of(program, 1))
    print(f'{name}: {counted / COUNTED / PAGES:.0f} instructions, {(more - once) / MORE / PAGES * 1e6:.2f} us for a page')
MEASURE
