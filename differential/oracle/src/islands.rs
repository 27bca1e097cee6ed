//! The painted islands of a map by a search of their own, for the words of a face that the Rust does not tell.

use crate::LabelMap;

/// Label, x and y of the first pixel, row by row, of each painted island; by label, and then by pixel.
pub fn first_pixels(map: &LabelMap) -> Vec<[u32; 3]> {
    let mut seen = vec![false; map.labels.len()];
    let mut found = Vec::new();
    for (p, &label) in map.labels.iter().enumerate() {
        if seen[p] || label as usize >= map.paints.len() {
            continue;
        }
        found.push([label, p as u32 % map.width, p as u32 / map.width]);
        see_island(map, p, &mut seen);
    }
    found.sort_by_key(|island| island[0]);
    found
}

/// All pixels of the island of the pixel `first`, over the eight neighbours of each.
fn see_island(map: &LabelMap, first: usize, seen: &mut [bool]) {
    let (width, height) = (map.width as usize, map.height as usize);
    seen[first] = true;
    let mut open = vec![first];
    while let Some(p) = open.pop() {
        let (x, y) = (p % width, p / width);
        for v in y.saturating_sub(1)..(y + 2).min(height) {
            for u in x.saturating_sub(1)..(x + 2).min(width) {
                let q = v * width + u;
                if !seen[q] && map.labels[q] == map.labels[first] {
                    seen[q] = true;
                    open.push(q);
                }
            }
        }
    }
}
