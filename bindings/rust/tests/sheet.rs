//! Moves on a sheet, and the sheets that are refused.

use mosaic::ffi::Answer;
use mosaic::sheet::mosaic_sheet_whole;
use mosaic::{cut_on_sheet, Map, Move, OnSheet, Sheet};

fn on(width: u32, height: u32, labels: &[u32], sides: (f64, f64)) -> OnSheet {
    let map = Map {
        width,
        height,
        paints: 2,
        labels,
    };
    let sheet = Sheet::new(sides.0, sides.1).expect("an allowed sheet");
    cut_on_sheet(map, sheet).expect("an accepted map")
}

fn point(step: &Move) -> (u64, u64) {
    let (Move::Travel { x, y } | Move::Cut { x, y }) = *step;
    (x.to_bits(), y.to_bits())
}

#[test]
fn one_pixel() {
    let cuts = on(1, 1, &[0], (3000.0, 0.5));
    let moves: Vec<_> = cuts.moves().collect();
    let expected = [
        Move::Travel { x: 0.0, y: 0.0 },
        Move::Cut { x: 3000.0, y: 0.0 },
        Move::Cut { x: 3000.0, y: 0.5 },
        Move::Cut { x: 0.0, y: 0.5 },
        Move::Cut { x: 0.0, y: 0.0 },
    ];
    assert_eq!(moves, expected);
}

#[test]
fn each_coordinate_is_multiplied_then_divided() {
    let (width, height) = (2999.9999999999973, 0.1);
    let labels = [0, 1, 0, 1, 0, 1];
    let cuts = on(3, 2, &labels, (width, height));
    let along = |n: u32, count: u32, side: f64| match n == count {
        true => side,
        false => f64::from(n) * side / f64::from(count),
    };
    let mut moves = cuts.moves();
    for segment in cuts.list().segments() {
        for (place, corner) in segment.points().enumerate() {
            let (x, y) = (along(corner.x, 3, width), along(corner.y, 2, height));
            let expected = match place {
                0 => Move::Travel { x, y },
                _ => Move::Cut { x, y },
            };
            assert_eq!(moves.next(), Some(expected));
        }
    }
    assert_eq!((moves.next(), moves.next()), (None, None));
}

#[test]
fn cuts_are_steps_and_reversed_segments_have_the_same_points() {
    let labels = [0, 1, 0, 1, 1, 0, 0, 1, 1, 0, 0, 1];
    let cuts = on(4, 3, &labels, (1.0 / 3.0, 1000.1));
    let (forward, reversed): (Vec<_>, Vec<_>) =
        (cuts.moves().collect(), cuts.moves_reversed().collect());
    let steps = cuts.list().counts()[6] as usize;
    for moves in [&forward, &reversed] {
        let cut = moves.iter().filter(|m| matches!(m, Move::Cut { .. }));
        assert_eq!(cut.count(), steps);
    }
    let mut start = 0;
    for segment in cuts.list().segments() {
        let part = start..start + segment.points().len();
        let backwards = reversed[part.clone()].iter().rev().map(point);
        assert!(forward[part.clone()].iter().map(point).eq(backwards));
        start = part.end;
    }
    assert_eq!(start, forward.len());
}

/// The number for a map of one pixel on a sheet, with all the room it needs.
fn number(width: f64, height: f64) -> u32 {
    let mut stores = [[0u32; 32]; 7];
    let [work, nodes, segments, points, references, contours, faces] = &mut stores;
    let mut answer = Answer::default();
    // SAFETY: each pointer and length is that of an array of its own.
    unsafe {
        mosaic_sheet_whole(
            0,
            1,
            1,
            1,
            width,
            height,
            [0].as_ptr(),
            1,
            work.as_mut_ptr(),
            work.len(),
            nodes.as_mut_ptr(),
            nodes.len(),
            segments.as_mut_ptr(),
            segments.len(),
            points.as_mut_ptr(),
            points.len(),
            references.as_mut_ptr(),
            references.len(),
            contours.as_mut_ptr(),
            contours.len(),
            faces.as_mut_ptr(),
            faces.len(),
            &mut answer,
        );
    }
    answer.number
}

#[test]
fn a_sheet_is_refused_where_the_library_answers_16() {
    let sides = [
        f64::NAN,
        f64::NEG_INFINITY,
        -1.0,
        -0.0,
        0.0,
        5e-324,
        f64::MIN_POSITIVE,
        0.1,
        2999.9999999999995,
        3000.0,
        3000.0000000000005,
        f64::MAX,
        f64::INFINITY,
    ];
    for width in sides {
        for height in sides {
            let expected = match number(width, height) {
                0 => true,
                16 => false,
                other => panic!("number {}", other),
            };
            assert_eq!(Sheet::new(width, height).is_some(), expected);
        }
    }
}
