//! Trays against single calls, and the maps of a tray that are refused.

use mosaic::tray::mosaic_tray;
use mosaic::{cut_in, tray, Map, Mode, Refusal, RegionId, Tile};

/// Forty small maps, and their labels.
fn forty() -> (Vec<Tile>, Vec<u32>) {
    let tiles: Vec<Tile> = (0..40)
        .map(|i| Tile {
            width: i % 7,
            height: 1 + i * i % 5,
            paints: i % 4,
        })
        .collect();
    let count: u32 = tiles.iter().map(|t| t.width * t.height).sum();
    let labels = (0..count).map(|i| match (i * i + i / 5) % 7 {
        6 => RegionId::OUTSIDE.0,
        n => n / 2,
    });
    (tiles, labels.collect())
}

#[test]
fn each_map_as_by_itself() {
    let (tiles, labels) = forty();
    for mode in [Mode::Plain, Mode::NoWaste] {
        let lists = tray(mode, &tiles, &labels).unwrap();
        let mut rest = &labels[..];
        for (tile, list) in tiles.iter().zip(&lists) {
            let (own, behind) = rest.split_at((tile.width * tile.height) as usize);
            rest = behind;
            let map = Map {
                width: tile.width,
                height: tile.height,
                paints: tile.paints,
                labels: own,
            };
            assert_eq!(*list, cut_in(mode, map));
        }
        assert_eq!((lists.len(), rest.len()), (40, 0));
    }
}

#[test]
fn refused_maps_between() {
    let (tiles, labels) = forty();
    let alone = tray(Mode::Plain, &tiles, &labels).unwrap();
    let wide = Tile {
        width: 16_385,
        height: 0,
        paints: 1,
    };
    let mut mixed = Vec::new();
    for &tile in &tiles {
        mixed.extend([wide, tile]);
    }
    let lists = tray(Mode::Plain, &mixed, &labels).unwrap();
    for (pair, list) in lists.chunks(2).zip(&alone) {
        assert_eq!(pair, [Err(Refusal::SideTooLong), list.clone()]);
    }
}

#[test]
fn past_the_labels() {
    let tile = |width, height| Tile {
        width,
        height,
        paints: 1,
    };
    let huge = u32::MAX;
    let tiles = [
        tile(1, 1),
        tile(16_384, 16_384),
        tile(0, 0),
        tile(huge, huge),
        tile(1, 1),
    ];
    let lists = tray(Mode::Plain, &tiles, &[0, 0, 0]).unwrap();
    let refused: Vec<_> = lists.into_iter().map(Result::err).collect();
    let (two, one) = (Some(Refusal::WrongLabelCount), Some(Refusal::SideTooLong));
    assert_eq!(refused, [None, two, two, one, two]);
    assert_eq!(tray(Mode::NoWaste, &[], &[7]), Ok(vec![]));
}

#[test]
fn too_few_answer_words() {
    let maps = [1, 1, 1, 1, 1, 1, 9];
    let labels = [0, 0];
    let mut stores = [[5u32; 64]; 7];
    let mut answers = [5u32; 16];
    let [work, nodes, segments, points, references, contours, faces] = &mut stores;
    let mut call = |answers: &mut [u32]| {
        // SAFETY: each store is an array of its own.
        unsafe {
            mosaic_tray(
                0,
                maps.as_ptr(),
                maps.len(),
                labels.as_ptr(),
                labels.len(),
                work.as_mut_ptr(),
                work.len(),
                nodes.as_mut_ptr(),
                nodes.len(),
                segments.as_mut_ptr(),
                segments.len(),
                points.as_mut_ptr(),
                points.len(),
                references.as_mut_ptr(),
                references.len(),
                contours.as_mut_ptr(),
                contours.len(),
                faces.as_mut_ptr(),
                faces.len(),
                answers.as_mut_ptr(),
                answers.len(),
            )
        }
    };
    assert_eq!(call(&mut answers[..15]), 18);
    assert_eq!(answers, [5; 16]);
    assert_eq!(call(&mut answers), 0);
    assert_eq!(answers, [0, 0, 1, 5, 1, 1, 1, 4, 0, 0, 1, 5, 1, 1, 1, 4]);
    assert_eq!(stores[6][..11], [0, 0, 1, 0, 0, 0, 0, 1, 0, 0, 5]);
}
