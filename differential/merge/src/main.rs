//! The merge of near colours against the unchanged Rust: `merge compare MAPS SEED` and `merge time`.

mod calls;
mod maps;
mod time;

use calls::{found, odd, plain, wanted, Call, Left};
use maps::{every, large, random, Dice, Job};
use std::process::exit;

/// Maps and calls so far, how many of them merged something, and the calls by number.
#[derive(Default)]
struct Tally {
    maps: u32,
    calls: u32,
    merged: u32,
    numbers: std::collections::BTreeMap<u32, u32>,
}

impl Tally {
    fn call(&mut self, call: &Call) {
        let (have, want) = (found(call), wanted(call));
        if have != want {
            println!("differs on {call:?}\nleft {have:?}\nwanted {want:?}");
            println!("{} maps, {} calls, 1 differences", self.maps, self.calls);
            exit(1);
        }
        self.calls += 1;
        *self.numbers.entry(have.answer.number).or_default() += 1;
        let paints = |labels: &[u32]| {
            labels
                .iter()
                .collect::<std::collections::HashSet<_>>()
                .len()
        };
        self.merged += u32::from(paints(&have.labels) < paints(&call.job.labels));
    }

    fn map(&mut self, job: Job, dice: &mut Dice, odd_too: bool) {
        self.maps += 1;
        self.call(&plain(job.clone(), dice));
        if odd_too {
            self.call(&odd(job, dice));
        }
    }
}

/// A comparison that finds nothing is worth what it would have found.
fn planted(dice: &mut Dice) {
    let call = plain(large("stripes", 16, 4, 300, true), dice);
    let good = found(&call);
    let faults: [fn(&mut Left); 6] = [
        |left| left.answer.number = 3,
        |left| left.answer.paints += 1,
        |left| left.labels[5] ^= 1,
        |left| left.colours[0] ^= 1,
        |left| left.work[7] = 1,
        |left| left.regions[11] = 1,
    ];
    for fault in faults {
        let mut bad = good.clone();
        fault(&mut bad);
        assert!(bad != wanted(&call), "a planted fault was not seen");
    }
    println!("6 planted faults, each of them seen");
}

fn compare(count: u32, seed: u64) {
    let mut dice = Dice(seed);
    planted(&mut dice);
    let mut tally = Tally::default();
    for job in every() {
        tally.map(job, &mut dice, true);
    }
    for _ in 0..count {
        let job = random(&mut dice);
        tally.map(job, &mut dice, true);
    }
    for (kind, side, paints, limit, slope) in time::MAPS {
        tally.map(large(kind, side, paints, limit, slope), &mut dice, false);
    }
    println!(
        "something was merged in {} calls; calls by number {:?}",
        tally.merged, tally.numbers
    );
    println!("{} maps, {} calls, 0 differences", tally.maps, tally.calls);
}

fn main() {
    let words: Vec<String> = std::env::args().skip(1).collect();
    let number = |k: usize| words.get(k).and_then(|word| word.parse().ok());
    match words.first().map(String::as_str) {
        Some("compare") => compare(number(1).unwrap_or(20_000), number(2).unwrap_or(106).into()),
        Some("time") => time::table(),
        _ => {
            eprintln!("merge compare MAPS SEED | merge time");
            exit(2);
        }
    }
}
