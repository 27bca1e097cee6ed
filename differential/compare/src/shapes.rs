//! Maps that a shop or a bench would draw, at any side.

use oracle::OUTSIDE;

use crate::map::Map;
use crate::random::Random;

pub const NAMES: [&str; 8] = [
    "blobs",
    "noise",
    "stripes",
    "checker",
    "rings",
    "spiral",
    "all-distinct",
    "diagonal-touch",
];

/// Those in which nearly every corner is a node.
pub const DENSE: [&str; 3] = ["noise", "checker", "all-distinct"];

/// The shape of this name, `side` by `side`.
pub fn shape(name: &str, side: u32) -> Map {
    let mut random = Random(u64::from(side));
    let centre = side / 2;
    let far = |x: u32, y: u32| x.abs_diff(centre).max(y.abs_diff(centre));
    match name {
        "blobs" => blobs(side),
        "noise" => Map::new(side, side, 16, |_, _| random.below(16)),
        "stripes" => Map::new(side, side, 8, |x, y| (x + 3 * y) / 24 % 8),
        "checker" => Map::new(side, side, 2, |x, y| (x + y) % 2),
        "rings" => Map::new(side, side, 3, |x, y| far(x, y) % 3),
        "spiral" => Map::new(side, side, 1, |x, y| spiral(side, x, y)),
        "all-distinct" => Map::new(side, side, side * side, |x, y| y * side + x),
        _ => Map::new(side, side, 2, |x, y| match (x % 4, y % 4) {
            (0, 0) | (1, 1) => 0,
            (3, 3) | (2, 2) => 1,
            (1, 3) => 5,
            _ => OUTSIDE,
        }),
    }
}

/// Patches some 20 pixels wide, with ragged borders: the nearest of a few jittered centres.
fn blobs(side: u32) -> Map {
    const CELL: u32 = 20;
    let jitter = |cx: u32, cy: u32| Random(u64::from(cx) << 32 | u64::from(cy)).next();
    let distance = |x: u32, y: u32, cx: u32, cy: u32| {
        let j = jitter(cx, cy);
        let px = cx * CELL + (j % u64::from(CELL)) as u32;
        let py = cy * CELL + (j / 64 % u64::from(CELL)) as u32;
        x.abs_diff(px).pow(2) + y.abs_diff(py).pow(2)
    };
    Map::new(side, side, 60, |x, y| {
        let (cx, cy) = (x / CELL, y / CELL);
        let near = (cx.saturating_sub(1)..=cx + 1)
            .flat_map(|a| (cy.saturating_sub(1)..=cy + 1).map(move |b| (a, b)))
            .min_by_key(|&(a, b)| distance(x, y, a, b));
        near.map_or(0, |(a, b)| (jitter(a, b) >> 40) as u32 % 64)
    })
}

/// One path of 0 wound inwards with OUTSIDE between its turns: its rim is one ring.
fn spiral(side: u32, x: u32, y: u32) -> u32 {
    let edge = x.min(y).min(side - 1 - x).min(side - 1 - y);
    // The path goes round at even distances from the edge; below each north-west corner it leaves one pixel out, and enters the next rim.
    let passage = x == edge && y == edge + 1;
    if edge.is_multiple_of(2) != passage {
        0
    } else {
        OUTSIDE
    }
}
