//! Compares the library's labels with those of the unchanged Rust on random layers, and its numbers on damaged ones with docs/RULES.md.
//! Prints the smallest case that differs; the last line counts cases and differences.

use layers::{flatten, Dice};
use oracle::{from_segmentation, segmentation, OUTSIDE};
use std::panic::catch_unwind;
use std::process::ExitCode;

const CASES: u32 = 40_000;

#[derive(Clone, Debug)]
struct Case {
    width: u32,
    height: u32,
    layers: Vec<u32>,
    masks: Vec<u8>,
    /// How many labels are lent.
    room: usize,
}

impl Case {
    fn pixels(&self) -> usize {
        self.width as usize * self.height as usize
    }

    /// Where the offset plus the last column or row of a layer is above the highest signed number, the Rust's sum overflows.
    fn overflows(&self) -> bool {
        let beyond =
            |offset: u32, n: u32| i64::from(offset as i32) + i64::from(n) - 1 > i64::from(i32::MAX);
        self.layers
            .chunks_exact(4)
            .any(|l| l[2] > 0 && l[3] > 0 && (beyond(l[0], l[2]) || beyond(l[1], l[3])))
    }
}

/// An offset: mostly near the canvas, else far off it or near an end of the 32 bits.
fn offset(dice: &mut Dice, side: u32) -> u32 {
    let near = dice.roll(2 * side + 24) as i32 - side as i32 - 12;
    let offset = match dice.roll(12) {
        0 => i32::MAX - dice.roll(12) as i32,
        1 => i32::MIN + dice.roll(12) as i32,
        2 => near.wrapping_mul(100_003),
        _ => near,
    };
    offset as u32
}

fn layer(dice: &mut Dice, case: &mut Case, longest: u32) {
    let [w, h] = match dice.roll(16) {
        0 => [0, dice.roll(9)],
        1 => [dice.roll(9), 0],
        2 => [0, 70_000],
        _ => [(); 2].map(|_| 1 + dice.roll(longest)),
    };
    let [x, y] = [case.width, case.height].map(|side| offset(dice, side));
    case.layers.extend([x, y, w, h]);
    let ones = dice.roll(5);
    for _ in 0..w as usize * h as usize {
        case.masks.push(u8::from(dice.roll(4) < ones));
    }
}

fn random(dice: &mut Dice) -> Case {
    let longest = [10, 10, 10, 40, 90][dice.roll(5) as usize];
    let mut case = Case {
        width: dice.roll(longest),
        height: dice.roll(longest),
        layers: Vec::new(),
        masks: Vec::new(),
        room: 0,
    };
    case.room = case.pixels();
    for _ in 0..[0, 1, 2, 3, 6, 12][dice.roll(6) as usize] {
        layer(dice, &mut case, longest);
    }
    case
}

/// The case with one or more things wrong with it; sometimes with none.
fn damaged(dice: &mut Dice, mut case: Case) -> Case {
    for _ in 0..1 + dice.roll(2) {
        match dice.roll(9) {
            0 => case.width = 16_385 + dice.roll(3),
            1 => case.height = u32::MAX - dice.roll(3),
            2 => case.layers.extend(vec![0; 1 + dice.roll(4) as usize]),
            3 => case.layers.truncate(case.layers.len().saturating_sub(1)),
            4 => case.masks.push(0),
            5 => drop(case.masks.pop()),
            6 => match case.masks.len() {
                0 => (),
                n => case.masks[dice.roll(n as u32) as usize] = 2 + dice.roll(254) as u8,
            },
            7 => case.room = (case.room + 2).saturating_sub(dice.roll(4) as usize),
            // A mask that no word can count.
            _ => case.layers.extend([0, 0, u32::MAX, u32::MAX]),
        }
    }
    case
}

/// The refusals, once more.
fn number(case: &Case) -> u32 {
    if case.width > 16_384 || case.height > 16_384 {
        return 1;
    }
    let count = case.layers.len() / 4;
    let bytes: u128 = case
        .layers
        .chunks_exact(4)
        .map(|l| u128::from(l[2]) * u128::from(l[3]))
        .sum();
    let whole = case.layers.len() % 4 == 0 && bytes == case.masks.len() as u128;
    let bits = case.masks.iter().all(|&byte| byte <= 1);
    if count > 65_535 || !whole || !bits || case.room != case.pixels() {
        return 11;
    }
    0
}

/// The library's number and labels, and whether the words around them stayed.
fn library(case: &Case, old: u32) -> (u32, Vec<u32>, bool) {
    const GUARD: usize = 8;
    let mut words = vec![old; case.room + 2 * GUARD];
    let lent = &mut words[GUARD..GUARD + case.room];
    let number = flatten(case.width, case.height, &case.layers, &case.masks, lent);
    let guards = words[..GUARD].iter().chain(&words[GUARD + case.room..]);
    let kept = guards.clone().all(|&word| word == old);
    (number, words[GUARD..GUARD + case.room].to_vec(), kept)
}

#[derive(Default)]
struct Count {
    cases: u32,
    refused: u32,
    overflowed: u32,
    panicked: u32,
    differences: u32,
    smallest: Option<Case>,
}

impl Count {
    fn differs(&mut self, case: &Case) {
        self.differences += 1;
        let size = |c: &Case| c.layers.len() + c.masks.len() + c.room;
        if self.smallest.as_ref().is_none_or(|s| size(case) < size(s)) {
            self.smallest = Some(case.clone());
        }
    }

    fn compare(&mut self, case: &Case, old: u32) {
        self.cases += 1;
        let expected = number(case);
        let (answer, labels, kept) = library(case, old);
        if answer != expected || !kept {
            return self.differs(case);
        }
        if expected != 0 {
            self.refused += 1;
            if labels.iter().any(|&word| word != old) {
                self.differs(case);
            }
            return;
        }
        self.overflowed += u32::from(case.overflows());
        let rust = catch_unwind(|| {
            let seg = segmentation(case.width, case.height, &case.layers, &case.masks);
            from_segmentation(&seg)
        });
        match rust {
            Ok(map) if map.labels == labels && map.paints.len() == case.layers.len() / 4 => (),
            // With overflow checks the Rust has no answer there.
            Err(_) if case.overflows() => self.panicked += 1,
            _ => self.differs(case),
        }
    }
}

/// As many layers as may be, and one more: all of one pixel.
fn many(count: usize) -> Case {
    Case {
        width: 1,
        height: 1,
        layers: [0, 0, 1, 1].repeat(count),
        masks: vec![1; count],
        room: 1,
    }
}

fn main() -> ExitCode {
    std::panic::set_hook(Box::new(|_| ()));
    let mut dice = Dice(103);
    let mut count = Count::default();
    for _ in 0..CASES {
        let case = random(&mut dice);
        let old = [0, 7, OUTSIDE][dice.roll(3) as usize];
        count.compare(&case, old);
        count.compare(&damaged(&mut dice, case), old);
    }
    for layers in [65_535, 65_536] {
        count.compare(&many(layers), 7);
    }
    if let Some(case) = &count.smallest {
        println!("{case:?}");
    }
    println!(
        "{} cases, {} of them refused, {} where the Rust's sum overflows ({} of these panicked), {} differences",
        count.cases, count.refused, count.overflowed, count.panicked, count.differences
    );
    ExitCode::from(u8::from(count.differences > 0))
}
