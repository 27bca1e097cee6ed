//! Maps by enumeration: every map of a size over some labels, and every arrangement of nine pixels.

use oracle::OUTSIDE;

use crate::map::Map;

/// Hands out every map of this size over these labels.
pub fn every_map(width: u32, height: u32, paints: u32, labels: &[u32], mut take: impl FnMut(&Map)) {
    let pixels = (width * height) as usize;
    let mut places = vec![0; pixels];
    loop {
        let mut i = places.iter();
        take(&Map::new(width, height, paints, |_, _| {
            i.next().map_or(0, |&place| labels[place])
        }));
        // The next number with `labels.len()` as base.
        let Some(up) = places.iter().position(|&place| place + 1 < labels.len()) else {
            return;
        };
        places[..up].fill(0);
        places[up] += 1;
    }
}

/// Hands out every partition of nine pixels into patches, each pixel with the number of its patch, and the number of patches.
/// A patch's number is larger by at most one than those before it, so no partition comes twice.
pub fn every_arrangement(mut take: impl FnMut(&[u32; 9], u32)) {
    fn extend(
        at: usize,
        patches: u32,
        pixels: &mut [u32; 9],
        take: &mut dyn FnMut(&[u32; 9], u32),
    ) {
        if at == pixels.len() {
            return take(pixels, patches);
        }
        for patch in 0..=patches {
            pixels[at] = patch;
            extend(at + 1, patches.max(patch + 1), pixels, take);
        }
    }
    extend(0, 0, &mut [0; 9], &mut take);
}

/// Nine pixels by the number of their patch; one patch may be OUTSIDE.
pub fn arranged(pixels: &[u32; 9], patches: u32, outside: u32) -> Map {
    Map::new(3, 3, patches, |x, y| match pixels[(y * 3 + x) as usize] {
        patch if patch == outside => OUTSIDE,
        patch => patch,
    })
}

#[cfg(test)]
mod tests {
    use super::*;
    use std::collections::HashSet;

    #[test]
    fn every_map_comes_once() {
        let mut seen = HashSet::new();
        every_map(2, 3, 2, &[0, 1, 7], |map| {
            assert!(seen.insert(map.labels.clone()))
        });
        assert_eq!(seen.len(), 729);
        let mut empty = 0;
        every_map(0, 3, 2, &[0, 1], |_| empty += 1);
        assert_eq!(empty, 1);
    }

    /// 21,147 is the ninth Bell number, 115,975 the tenth: nine pixels and OUTSIDE.
    #[test]
    fn every_arrangement_comes_once() {
        let (mut seen, mut with_outside) = (HashSet::new(), 0);
        every_arrangement(|pixels, patches| {
            assert!(seen.insert(*pixels));
            with_outside += 1 + patches;
        });
        assert_eq!(seen.len(), 21_147);
        assert_eq!(with_outside, 115_975);
    }
}
