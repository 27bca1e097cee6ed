//! What is asked of the library for one map, and what the rules say must come of it, given the Rust's cut list.

use std::fmt;

use oracle::{CutList, RECORD};

use crate::map::Map;

/// The largest side that the port takes.
pub const SIDE: u32 = 16_384;

#[derive(Clone, Copy, Debug, PartialEq, Eq)]
pub enum Call {
    Size,
    Graph,
    Whole,
}

impl Call {
    /// How many of the six stores it takes.
    pub fn stores(self) -> usize {
        match self {
            Call::Size => 0,
            Call::Graph => 3,
            Call::Whole => 6,
        }
    }
}

/// One call: its numbers, how many labels it is handed, and the lengths of the stores lent to it.
#[derive(Clone)]
pub struct Setup {
    pub call: Call,
    pub width: u32,
    pub height: u32,
    pub mode: u32,
    pub paints: u32,
    pub labels: usize,
    pub work: usize,
    pub stores: [usize; 6],
}

impl fmt::Debug for Setup {
    fn fmt(&self, f: &mut fmt::Formatter) -> fmt::Result {
        write!(
            f,
            "{:?} in mode {} of {} by {}, {} paints, {} labels, {} work words, stores of {:?} words",
            self.call,
            self.mode,
            self.width,
            self.height,
            self.paints,
            self.labels,
            self.work,
            &self.stores[..self.call.stores()]
        )
    }
}

/// What must come of a call.
pub struct Expected<'a> {
    pub answer: [u32; 8],
    /// How many work words are 0 afterwards; the others are old.
    pub cleared: usize,
    /// The words at the start of each store; the others are old.
    pub words: [&'a [u32]; 6],
}

/// docs/RULES.md, "Numbers", for a map with this cut list. (After 1, 2 and 3 the list is not looked at.)
pub fn expected<'a>(setup: &Setup, list: &'a CutList) -> Expected<'a> {
    let number = number(setup, list);
    let mut answer = [0; 8];
    answer[0] = number;
    let mut cleared = 0;
    if !(1..=3).contains(&number) {
        answer[1..].copy_from_slice(&list.counts);
        if setup.call == Call::Graph {
            answer[4..7].fill(0);
        }
        cleared = work_words(setup.width, setup.height);
    }
    let mut words = [[].as_slice(); 6];
    if number == 0 {
        let written = setup.call.stores();
        words[..written].copy_from_slice(&list.stores()[..written]);
    }
    Expected {
        answer,
        cleared,
        words,
    }
}

/// The number of the first check that hits, or 0.
fn number(setup: &Setup, list: &CutList) -> u32 {
    if setup.width > SIDE || setup.height > SIDE {
        return 1;
    }
    if setup.labels != setup.width as usize * setup.height as usize {
        return 2;
    }
    if setup.work < work_words(setup.width, setup.height) {
        return 3;
    }
    (0..setup.call.stores())
        .find(|&k| setup.stores[k] / RECORD[k] < list.counts[k] as usize)
        .map_or(0, |k| 4 + k as u32)
}

fn work_words(width: u32, height: u32) -> usize {
    8 * (width as usize + 1) * (height as usize + 1)
}

/// How much is asked for one map.
#[derive(Clone, Copy, Debug, PartialEq, Eq, PartialOrd)]
pub enum Depth {
    /// For maps of millions of pixels: `whole` with larger stores.
    One,
    /// Also `size` and `graph` with exact stores, and the bad maps.
    Each,
    /// Also `whole` with exact stores, and with each store a word short.
    Some,
    /// Every kind of call.
    All,
}

/// The calls asked for a map with this cut list.
pub fn setups(map: &Map, list: &CutList, depth: Depth) -> Vec<Setup> {
    let mut out = Vec::new();
    for call in [Call::Size, Call::Graph, Call::Whole] {
        let whole = call == Call::Whole;
        let exact = Setup {
            call,
            width: map.width,
            height: map.height,
            mode: map.mode(),
            paints: map.paints,
            labels: map.labels.len(),
            work: work_words(map.width.min(SIDE), map.height.min(SIDE)),
            stores: list.stores().map(<[u32]>::len),
        };
        if whole || depth == Depth::All {
            out.push(larger(&exact));
        }
        if depth == Depth::All || (whole && depth == Depth::Some) {
            short_stores(&mut out, &exact, depth);
        }
        if depth >= Depth::Each {
            bad_maps(&mut out, &exact);
        }
        if depth >= Depth::Some || (depth == Depth::Each && !whole) {
            out.push(exact);
        }
    }
    out
}

/// Room for a part of a record more, or for several records more.
fn larger(exact: &Setup) -> Setup {
    let mut setup = exact.clone();
    setup.work += 3;
    for (k, len) in setup.stores.iter_mut().enumerate() {
        *len += if k % 2 == 0 {
            RECORD[k] - 1
        } else {
            3 * RECORD[k] + 1
        };
    }
    setup
}

/// Each store a word short, and a record short with every store after it empty.
fn short_stores(out: &mut Vec<Setup>, exact: &Setup, depth: Depth) {
    for (k, record) in RECORD.iter().enumerate().take(exact.call.stores()) {
        if exact.stores[k] == 0 {
            continue;
        }
        let mut setup = exact.clone();
        setup.stores[k] = exact.stores[k] - 1;
        out.push(setup.clone());
        if depth == Depth::All {
            setup.stores[k] = exact.stores[k] - record;
            setup.stores[k + 1..].fill(0);
            out.push(setup);
        }
    }
}

/// A work store that is short, a label too few or too many, sides too large; each by itself, and with everything after it wrong too.
fn bad_maps(out: &mut Vec<Setup>, exact: &Setup) {
    let mut bad = |one: Setup| {
        out.push(Setup {
            work: 0,
            stores: [0; 6],
            ..one.clone()
        });
        out.push(one);
    };
    bad(Setup {
        work: exact.work - 1,
        ..exact.clone()
    });
    for labels in [exact.labels + 1, exact.labels.saturating_sub(1)] {
        if labels != exact.labels {
            bad(Setup {
                labels,
                ..exact.clone()
            });
        }
    }
    for (width, height) in [
        (SIDE + 1, exact.height),
        (exact.width, SIDE + 1),
        (u32::MAX, u32::MAX),
    ] {
        bad(Setup {
            width,
            height,
            ..exact.clone()
        });
    }
}
