//! The comparison, kind of map after kind of map.

use std::error::Error;
use std::path::Path;
use std::process::ExitCode;
use std::time::{Duration, Instant};

use oracle::OUTSIDE;

use crate::definitions::{self, Computed};
use crate::every;
use crate::judge::Judge;
use crate::library::Library;
use crate::map::Map;
use crate::random::Random;
use crate::setup::{Depth, SIDE};
use crate::shapes;

/// How far each kind of map goes.
pub struct Extent {
    /// How many maps antt computes.
    computed: usize,
    /// The most pixels of the maps over four labels.
    pixels: u32,
    /// Whether nine pixels are arranged in every way; with OUTSIDE among them; and whether every 4×4 map is tried.
    arranged: bool,
    outside: bool,
    fours: bool,
    /// How many random maps up to 12×12 and up to 300×300, and the sides of the shapes.
    small: u32,
    large: u32,
    sides: &'static [u32],
    /// The largest side of the shapes in which nearly every corner is a node.
    dense: u32,
}

/// For planted faults: the smallest maps show them.
pub const SMALLEST: Extent = Extent {
    computed: 0,
    pixels: 3,
    arranged: false,
    outside: false,
    fours: false,
    small: 0,
    large: 0,
    sides: &[],
    dense: 0,
};
pub const QUICK: Extent = Extent {
    computed: 210,
    pixels: 6,
    arranged: true,
    outside: false,
    fours: false,
    small: 1_000,
    large: 2,
    sides: &[50],
    dense: 50,
};
pub const FULL: Extent = Extent {
    computed: 1000,
    pixels: 9,
    arranged: true,
    outside: true,
    fours: true,
    small: 100_000,
    large: 200,
    sides: &[50, 250, 1024, 4096],
    dense: 4096,
};
/// Under an emulator the largest dense shapes would take longer than all the rest.
pub const EMULATED: Extent = Extent {
    dense: 2048,
    ..FULL
};

/// Compares all that the extent asks for: the definitions in the repository at `root`, and the library that `command` runs.
pub fn run(extent: &Extent, root: &Path, command: &[String]) -> Result<ExitCode, Box<dyn Error>> {
    let processes = std::thread::available_parallelism()?.get();
    let libraries: Result<Vec<_>, _> = (0..processes).map(|_| Library::start(command)).collect();
    let mut run = Comparison {
        judge: Judge::new(libraries?),
        began: Instant::now(),
        shown: Instant::now(),
    };
    let mut computed = Computed::default();
    if extent.computed > 0 {
        computed = definitions::compare(root, extent.computed)?;
        run.say(&format!(
            "the definitions on {} maps: {} differ",
            computed.maps,
            computed.differ.len()
        ));
    }
    run.small_maps(extent);
    if extent.arranged {
        run.arrangements(extent.outside);
        run.edges();
    }
    run.random_maps(extent.small, 12, Depth::All);
    run.random_maps(extent.large, 300, Depth::Some);
    for &side in extent.sides {
        run.shapes(side, extent.dense);
    }
    Ok(run.verdict(&computed))
}

struct Comparison {
    judge: Judge,
    began: Instant,
    shown: Instant,
}

impl Comparison {
    /// Judges a map, and shows every few seconds how far it is.
    fn judge(&mut self, map: &Map, depth: Depth, what: &str) {
        self.judge.judge(map, depth);
        if let Some(map) = map.without_waste() {
            self.judge.judge(&map, depth);
        }
        if self.shown.elapsed() > Duration::from_secs(5) {
            self.say(&format!("{what} .."));
        }
    }

    /// One line of progress, once all that was asked is compared.
    fn say(&mut self, what: &str) {
        self.judge.finish();
        self.shown = Instant::now();
        println!(
            "{:4} s  {:7} maps  {:9} calls  {} differences  {what}",
            self.began.elapsed().as_secs(),
            self.judge.maps,
            self.judge.calls,
            self.judge.differences
        );
    }

    /// Every small map over two painted labels, an unpainted one and OUTSIDE; every 4×4 map over two labels.
    fn small_maps(&mut self, extent: &Extent) {
        let what = "every small map over two painted labels, one unpainted and OUTSIDE";
        for (w, h) in small_sizes(extent.pixels) {
            every::every_map(w, h, 2, &[0, 1, 2, OUTSIDE], |map| {
                self.judge(map, Depth::All, what)
            });
        }
        self.say(what);
        if extent.fours {
            let what = "every 4 by 4 map over two labels, and over one and OUTSIDE";
            for second in [1, OUTSIDE] {
                every::every_map(4, 4, 2, &[0, second], |map| {
                    self.judge(map, Depth::All, what)
                });
            }
            self.say(what);
        }
    }

    /// Every 3×3 neighbourhood up to renaming: as a map, with each patch in turn as OUTSIDE, and inside a rim of one more label.
    fn arrangements(&mut self, outside: bool) {
        let (what, depth) = if outside {
            let all = "with and without OUTSIDE, and inside a rim";
            (all, Depth::All)
        } else {
            ("without OUTSIDE", Depth::One)
        };
        let what = &format!("every 3 by 3 neighbourhood up to renaming, {what}");
        let mut count = 0;
        every::every_arrangement(|pixels, patches| {
            count += 1;
            self.judge(&every::arranged(pixels, patches, patches), depth, what);
            if outside {
                count += patches;
                for out in 0..patches {
                    self.judge(&every::arranged(pixels, patches, out), depth, what);
                }
                self.judge(&rimmed(pixels, patches), depth, what);
            }
        });
        self.say(&format!("{what}: {count} arrangements"));
    }

    /// No pixels, the largest sides, and sides above them.
    fn edges(&mut self) {
        let what = "no pixels, the largest sides, sides above them";
        for (w, h) in [
            (0, 0),
            (3, 0),
            (0, 3),
            (SIDE, 0),
            (0, SIDE),
            (SIDE, 1),
            (1, SIDE),
            (SIDE + 1, 0),
            (0, SIDE + 1),
            (SIDE + 1, 1),
            (1, SIDE + 1),
            (u32::MAX, 0),
            (0, u32::MAX),
        ] {
            let map = Map::new(w, h, 2, |x, y| (x + y) / 3 % 3);
            self.judge(&map, Depth::Some, what);
        }
        self.say(what);
    }

    fn random_maps(&mut self, count: u32, side: u32, depth: Depth) {
        let what = format!("{count} random maps up to {side} by {side}");
        let mut random = Random(u64::from(side));
        for _ in 0..count {
            let map = random.map(side);
            self.judge(&map, depth, &what);
        }
        self.say(&what);
    }

    fn shapes(&mut self, side: u32, dense: u32) {
        let depth = match side {
            0..=100 => Depth::All,
            101..=300 => Depth::Some,
            301..=1024 => Depth::Each,
            _ => Depth::One,
        };
        for name in shapes::NAMES {
            let side = if shapes::DENSE.contains(&name) {
                side.min(dense)
            } else {
                side
            };
            self.judge.judge(&shapes::shape(name, side), depth);
            self.say(&format!("{name}, {side} by {side}"));
        }
    }

    /// Shows the smallest maps that differ; the last line counts.
    fn verdict(&mut self, computed: &Computed) -> ExitCode {
        if let Some(map) = &computed.smallest {
            println!("the smallest map on which the definitions differ from the Rust:\n{map}");
        }
        if let Some(found) = self.judge.smallest() {
            println!(
                "the smallest map on which the library differs from the Rust:\n{}{}",
                found.case.map, found.text
            );
        }
        let differences = self.judge.differences + computed.differ.len() as u64;
        println!(
            "{} maps by the definitions, {} maps and {} calls by the library, {differences} differences",
            computed.maps, self.judge.maps, self.judge.calls
        );
        if differences == 0 {
            ExitCode::SUCCESS
        } else {
            ExitCode::FAILURE
        }
    }
}

/// From the fewest pixels up, so that the first map that shows a difference is the smallest.
fn small_sizes(pixels: u32) -> Vec<(u32, u32)> {
    let mut sizes: Vec<(u32, u32)> = (1..=3).flat_map(|w| (1..=3).map(move |h| (w, h))).collect();
    sizes.extend([(4, 1), (1, 4), (5, 1), (1, 5), (4, 2), (2, 4)]);
    sizes.retain(|(w, h)| w * h <= pixels);
    sizes.sort_by_key(|(w, h)| w * h);
    sizes
}

/// The same inside a rim of one more label.
fn rimmed(pixels: &[u32; 9], patches: u32) -> Map {
    Map::new(5, 5, patches + 1, |x, y| {
        if (1..=3).contains(&x) && (1..=3).contains(&y) {
            pixels[((y - 1) * 3 + x - 1) as usize]
        } else {
            patches
        }
    })
}
