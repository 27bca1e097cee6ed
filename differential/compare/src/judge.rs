//! Asks the library all calls of a map and compares every word with what must come of them.
//!
//! Calls go to the library by batches, and several of its processes work at once: while one is compared and filled anew, the others go on.

use std::panic;
use std::rc::Rc;

use oracle::CutList;

use crate::lent::Lent;
use crate::library::{Library, ANSWER, MODE, ROW, WORDS};
use crate::map::Map;
use crate::setup::{expected, setups, Depth, Setup, SIDE};

/// Calls of a batch, and words after which it is full: about what a cache holds.
const CALLS: usize = 4096;
const FULL: usize = 400_000;
/// A call with more words than this is made and compared by itself, for two of them at once would take too much memory.
const LARGE: usize = 40_000_000;

const SLICES: [&str; 8] = [
    "labels",
    "work",
    "nodes",
    "segments",
    "points",
    "references",
    "contours",
    "faces",
];

/// A map, the Rust's answer to it, and how much is asked.
pub struct Case {
    pub map: Map,
    list: CutList,
    depth: Depth,
}

/// A case that shows a difference, and the difference in words.
pub struct Finding {
    pub case: Rc<Case>,
    pub text: String,
}

/// One call of a batch.
struct Asked {
    case: Rc<Case>,
    setup: Setup,
    slices: [Lent; 8],
}

/// A process of the library, and what was asked of it.
struct Worker {
    library: Library,
    asked: Vec<Asked>,
    end: usize,
    busy: bool,
}

pub struct Judge {
    workers: Vec<Worker>,
    /// The worker whose batch is filled; it is not busy.
    turn: usize,
    zeros: Vec<u32>,
    pub maps: u64,
    pub calls: u64,
    pub differences: u64,
    smallest: Option<Finding>,
}

impl Judge {
    pub fn new(libraries: Vec<Library>) -> Judge {
        // A panic of the Rust is a finding, and is told as one.
        panic::set_hook(Box::new(|_| ()));
        let worker = |library| Worker {
            library,
            asked: Vec::new(),
            end: 0,
            busy: false,
        };
        Judge {
            workers: libraries.into_iter().map(worker).collect(),
            turn: 0,
            zeros: Vec::new(),
            maps: 0,
            calls: 0,
            differences: 0,
            smallest: None,
        }
    }

    /// Asks all calls of one map.
    pub fn judge(&mut self, map: &Map, depth: Depth) {
        self.maps += 1;
        let (list, text) = match the_rust(map) {
            Ok(list) => (list, None),
            Err(text) => (CutList::default(), Some(text)),
        };
        let case = Rc::new(Case {
            map: map.clone(),
            list,
            depth,
        });
        match text {
            Some(text) => self.differs(Finding { case, text }),
            None => self.ask_all(&case),
        }
    }

    fn ask_all(&mut self, case: &Rc<Case>) {
        for setup in setups(&case.map, &case.list, case.depth) {
            self.calls += 1;
            self.ask(case, setup);
        }
    }

    /// Puts a call into the batch that is being filled.
    fn ask(&mut self, case: &Rc<Case>, setup: Setup) {
        let lens = lengths(&setup);
        let large = lens.iter().sum::<usize>() > LARGE;
        if large {
            self.finish();
            self.turn = 0;
        } else if self.workers[self.turn].full() {
            self.turn_over();
        }
        self.workers[self.turn].ask(case, setup, lens);
        if large {
            self.finish();
            self.workers[0].library.release();
        }
    }

    /// Has the filled batch made, and turns to the next worker.
    fn turn_over(&mut self) {
        self.workers[self.turn].start();
        self.turn = (self.turn + 1) % self.workers.len();
        self.compare(self.turn);
    }

    /// Has everything made and compared that was asked.
    pub fn finish(&mut self) {
        self.workers[self.turn].start();
        for k in 0..self.workers.len() {
            self.compare(k);
        }
    }

    /// Waits for a worker, and compares what it made.
    fn compare(&mut self, k: usize) {
        for (i, asked) in self.workers[k].done().iter().enumerate() {
            if let Err(text) = self.outcome(k, i, asked) {
                self.differs(Finding {
                    case: asked.case.clone(),
                    text: format!("{:?}: {text}", asked.setup),
                });
            }
        }
    }

    fn outcome(&mut self, k: usize, i: usize, asked: &Asked) -> Result<(), String> {
        let want = expected(&asked.setup, &asked.case.list);
        if self.zeros.len() < want.cleared {
            self.zeros.resize(want.cleared, 0);
        }
        let shared = self.workers[k].library.words();
        let answer = &shared[ROW * i + ANSWER..][..8];
        if answer != want.answer {
            return Err(format!("answer {answer:?}, not {:?}", want.answer));
        }
        let mut words = before(&asked.setup, &asked.case);
        words[1] = &self.zeros[..want.cleared];
        words[2..].copy_from_slice(&want.words);
        for (k, lent) in asked.slices.iter().enumerate() {
            if let Some((at, found, wanted)) = lent.difference(shared, words[k]) {
                return Err(format!("{}[{at}] is {found}, not {wanted}", SLICES[k]));
            }
        }
        Ok(())
    }

    fn differs(&mut self, found: Finding) {
        self.differences += 1;
        let best = self.smallest.as_ref();
        if best.is_none_or(|best| found.case.map.size() < best.case.map.size()) {
            self.smallest = Some(found);
        }
    }

    /// The smallest map that was found to show a difference, without the rows and columns that it does not need.
    pub fn smallest(&mut self) -> Option<Finding> {
        self.finish();
        let (maps, calls, differences) = (self.maps, self.calls, self.differences);
        while self.smaller() {}
        (self.maps, self.calls, self.differences) = (maps, calls, differences);
        self.smallest.take()
    }

    /// Whether the map still shows a difference without one of its rows or columns, which it then has no more.
    fn smaller(&mut self) -> bool {
        let Some(case) = self.smallest.as_ref().map(|found| found.case.clone()) else {
            return false;
        };
        let map = &case.map;
        let rows = (0..map.height).map(|row| map.without_row(row));
        let columns = (0..map.width).map(|column| map.without_column(column));
        for less in rows.chain(columns) {
            let before = self.differences;
            self.judge(&less, case.depth);
            self.finish();
            if self.differences > before {
                return true;
            }
        }
        false
    }
}

impl Worker {
    fn full(&self) -> bool {
        self.asked.len() == CALLS || self.end > FULL
    }

    /// Lays a call's slices out behind those of the batch, and the first behind the table of calls; fills them and the call's row.
    fn ask(&mut self, case: &Rc<Case>, setup: Setup, lens: [usize; 8]) {
        let mut end = self.end.max(CALLS * ROW);
        let slices = lens.map(|len| {
            let lent = Lent::after(end, len);
            end = lent.end();
            lent
        });
        assert!(end <= WORDS, "a map too large to be compared: {setup:?}");
        self.end = end;
        let shared = self.library.words();
        for (lent, words) in slices.iter().zip(before(&setup, case)) {
            lent.prepare(shared, words);
        }
        put_row(
            &mut shared[ROW * self.asked.len()..][..ROW],
            &setup,
            &slices,
        );
        self.asked.push(Asked {
            case: case.clone(),
            setup,
            slices,
        });
    }

    fn start(&mut self) {
        self.library.run(self.asked.len());
        self.busy = true;
    }

    /// What was asked and is now made.
    fn done(&mut self) -> Vec<Asked> {
        if !self.busy {
            return Vec::new();
        }
        self.library.wait();
        self.busy = false;
        self.end = 0;
        std::mem::take(&mut self.asked)
    }
}

/// The lengths of labels, work and stores. A store that a call does not take is not lent to it, and must be old afterwards too.
fn lengths(setup: &Setup) -> [usize; 8] {
    let mut lens = [setup.labels, setup.work, 0, 0, 0, 0, 0, 0];
    lens[2..].copy_from_slice(&setup.stores);
    lens
}

/// What the slices hold before the call: the labels, where the call gets one too many an old word after them, and else old words.
fn before<'a>(setup: &Setup, case: &'a Case) -> [&'a [u32]; 8] {
    let labels = &case.map.labels;
    let mut words = [[].as_slice(); 8];
    words[0] = &labels[..labels.len().min(setup.labels)];
    words
}

fn put_row(row: &mut [u32], setup: &Setup, slices: &[Lent; 8]) {
    row[..4].copy_from_slice(&[setup.call as u32, setup.width, setup.height, setup.paints]);
    for (k, lent) in slices.iter().enumerate() {
        row[4 + 2 * k] = lent.at as u32;
        row[5 + 2 * k] = lent.len as u32;
    }
    row[ANSWER..].fill(0xdead_beef);
    row[MODE] = setup.mode;
}

/// The Rust's cut list. It is not asked about sides that the port refuses.
fn the_rust(map: &Map) -> Result<CutList, String> {
    if map.width > SIDE || map.height > SIDE {
        return Ok(CutList::default());
    }
    panic::catch_unwind(|| map.cut_list())
        .map_err(|_| "the Rust panics".to_owned())
}
