//! How much veneer is in each piece, on maps worked by hand and against a count of pixels.

use mosaic::{cut_in, veneer, Map, Mode, Refusal, RegionId};

const OUTSIDE: u32 = RegionId::OUTSIDE.0;

fn sums(width: u32, height: u32, paints: u32, labels: &[u32]) -> Vec<i64> {
    let map = Map {
        width,
        height,
        paints,
        labels,
    };
    veneer(Mode::Plain, map).expect("an accepted map")
}

#[test]
fn worked_by_hand() {
    assert_eq!(sums(0, 0, 1, &[]), []);
    assert_eq!(sums(1, 1, 1, &[0]), [1]);
    assert_eq!(sums(3, 1, 2, &[0, 1, 0]), [1, 1, 1]);
    assert_eq!(sums(3, 3, 2, &[0, 0, 0, 0, 1, 0, 0, 0, 0]), [8, 1]);
    assert_eq!(sums(4, 3, 3, &[0, 0, 0, 0, 0, 1, 2, 0, 0, 0, 0, 0]), [10, 1, 1]);
    assert_eq!(sums(3, 2, 3, &[2, 2, 1, 0, 0, 0]), [3, 1, 2]);
    let o = OUTSIDE;
    let corner = [0, o, o, o, o, 0, 0, 0, o, 0, 1, 0, o, 0, 0, 0];
    assert_eq!(sums(4, 4, 2, &corner), [9, 1]);
}

#[test]
fn refused() {
    let long = Map {
        width: 16_385,
        height: 0,
        paints: 1,
        labels: &[],
    };
    assert_eq!(veneer(Mode::Plain, long), Err(Refusal::SideTooLong));
    let short = Map {
        width: 2,
        height: 1,
        paints: 1,
        labels: &[0],
    };
    assert_eq!(veneer(Mode::Plain, short), Err(Refusal::WrongLabelCount));
}

/// The sums are the contours' own, and together the painted pixels, in either mode.
#[test]
fn sums_of_contours() {
    let mut dice: u64 = 7;
    let mut roll = |sides: u64| {
        dice = dice
            .wrapping_mul(6364136223846793005)
            .wrapping_add(1442695040888963407);
        ((dice >> 33) % sides) as u32
    };
    for _ in 0..400 {
        let (width, height, paints) = (roll(9), roll(9), roll(4));
        let labels: Vec<u32> = (0..width * height).map(|_| roll(5)).collect();
        let map = Map {
            width,
            height,
            paints,
            labels: &labels,
        };
        for mode in [Mode::Plain, Mode::NoWaste] {
            let found = veneer(mode, map).expect("an accepted map");
            let list = cut_in(mode, map).expect("an accepted map");
            let own: Vec<i64> = list
                .faces()
                .map(|face| face.contours().map(|contour| contour.sum()).sum())
                .collect();
            assert_eq!(found, own);
            let painted = labels.iter().filter(|&&label| label < paints).count();
            assert_eq!(found.iter().sum::<i64>(), painted as i64);
        }
    }
}

/// The first contour of a face need not be its outline.
#[test]
fn outlines() {
    let map = Map {
        width: 4,
        height: 3,
        paints: 3,
        labels: &[0, 0, 0, 0, 0, 1, 2, 0, 0, 0, 0, 0],
    };
    let list = cut_in(Mode::Plain, map).expect("an accepted map");
    let marks: Vec<Vec<bool>> = list
        .faces()
        .map(|face| face.contours().map(|contour| contour.is_outline()).collect())
        .collect();
    assert_eq!(marks, [vec![false, true], vec![true], vec![true]]);
}
