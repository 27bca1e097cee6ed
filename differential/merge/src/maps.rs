//! The maps: every small one, random ones, and large ones of several kinds.

use std::f64::consts::TAU;

pub const OUTSIDE: u32 = u32::MAX;

/// A map, its colours and a limit.
#[derive(Clone, Debug)]
pub struct Job {
    pub width: u32,
    pub height: u32,
    pub paints: u32,
    pub limit: i32,
    pub labels: Vec<u32>,
    pub colours: Vec<u8>,
}

/// A small generator: the same maps in every run.
pub struct Dice(pub u64);

impl Dice {
    pub fn roll(&mut self, sides: u32) -> u32 {
        self.0 = self
            .0
            .wrapping_mul(6364136223846793005)
            .wrapping_add(1442695040888963407);
        ((self.0 >> 33) % u64::from(sides)) as u32
    }

    pub fn pick<T: Copy>(&mut self, from: &[T]) -> T {
        from[self.roll(from.len() as u32) as usize]
    }

    pub fn words(&mut self, count: usize) -> Vec<u32> {
        (0..count).map(|_| self.roll(u32::MAX)).collect()
    }
}

/// Every map of 2×2, 4×1 and 1×4 over three paints and OUTSIDE, in four tables of colours.
pub fn every() -> Vec<Job> {
    let greys = [[0, 0, 0], [0, 2, 4], [0, 4, 6], [9, 9, 0]];
    let mut jobs = Vec::new();
    for (width, height) in [(2, 2), (4, 1), (1, 4)] {
        for code in 0..256u32 {
            let label = |k: u32| [0, 1, 2, OUTSIDE][(code >> (2 * k) & 3) as usize];
            let labels: Vec<u32> = (0..4).map(label).collect();
            for grey in greys {
                for limit in [0, 6, 12] {
                    jobs.push(Job {
                        width,
                        height,
                        paints: 3,
                        limit,
                        labels: labels.clone(),
                        colours: grey.iter().flat_map(|&g| [g; 3]).collect(),
                    });
                }
            }
        }
    }
    jobs
}

/// Noise, slices or blocks, with some pixels OUTSIDE, some paints without pixels and colours near or far.
pub fn random(dice: &mut Dice) -> Job {
    let (width, height) = (dice.roll(10), dice.roll(10));
    let paints = dice.pick(&[2, 2, 3, 4, 6, 9, 14, 30]);
    let used = 1 + dice.roll(paints);
    let shift = dice.roll(paints);
    let outside = dice.pick(&[0, 0, 10, 50]);
    let kind = dice.roll(3);
    let mut labels = Vec::new();
    for y in 0..height {
        for x in 0..width {
            let k = match kind {
                0 => dice.roll(used),
                1 => x * used / width,
                _ => (x / 2 + 3 * (y / 2)) % used,
            };
            let off = dice.roll(100) < outside;
            labels.push(if off { OUTSIDE } else { (k + shift) % paints });
        }
    }
    let top = dice.pick(&[1, 2, 4, 13, 61, 256]);
    let slope = dice.pick(&[0, 0, 1, 5, 20]);
    let mut colours = Vec::new();
    for paint in 0..paints {
        for _ in 0..3 {
            colours.push((dice.roll(top) + slope * paint).min(255) as u8);
        }
    }
    let limit = dice.pick(&[0, 0, 1, 2, 3, 5, 8, 16, 30, 60, 200, 765, i32::MAX]);
    Job {
        width,
        height,
        paints,
        limit,
        labels,
        colours,
    }
}

/// A square map. Colours are random, or for `slope` grey from black to white.
pub fn large(kind: &str, side: u32, paints: u32, limit: i32, slope: bool) -> Job {
    let mut dice = Dice(u64::from(side));
    let mut labels = Vec::with_capacity((side * side) as usize);
    for y in 0..side {
        for x in 0..side {
            labels.push(match kind {
                "solid" => 0,
                "blobs" => ((hills(x, y) + 3.0) / 6.0 * f64::from(paints)) as u32 % paints,
                "stripes" => x / 4 % paints,
                "blocks" => (x / 32 + (side / 32) * (y / 32)) % paints,
                "checker" => (x + y) % paints,
                "noise" => dice.roll(paints),
                "distinct" => y * side + x,
                _ => panic!("no map called {kind}"),
            });
        }
    }
    let grey = |p: u32| [(p * 255 / (paints - 1).max(1)) as u8; 3];
    let colours = match slope {
        true => (0..paints).flat_map(grey).collect(),
        false => (0..3 * paints).map(|_| dice.roll(256) as u8).collect(),
    };
    Job {
        width: side,
        height: side,
        paints,
        limit,
        labels,
        colours,
    }
}

/// Waves of four lengths, from -3 to 3: round patches some 20 to 60 pixels across.
fn hills(x: u32, y: u32) -> f64 {
    let (x, y) = (f64::from(x), f64::from(y));
    let wave = |a: f64, b: f64, length: f64| (TAU * (a * x + b * y) / length).sin();
    wave(1.0, 0.2, 97.0)
        + wave(-0.3, 1.0, 83.0)
        + 0.6 * wave(0.8, 0.7, 41.0)
        + 0.4 * wave(0.6, -0.9, 29.0)
}
