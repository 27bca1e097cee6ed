//! Listings of a panel that two benches share.

use mosaic::listing::{listing, Listing, Step};
use mosaic::{Direction, Map, Point, Refusal, RegionId};

fn listed(labels: &[u32], named: &[u32]) -> Listing {
    let map = Map {
        width: 3,
        height: 3,
        paints: 5,
        labels,
    };
    let named: Vec<_> = named.iter().map(|&label| RegionId(label)).collect();
    listing(map, &named).expect("an accepted map")
}

/// A rim of 0 around a centre of 1.
const RIM: [u32; 9] = [0, 0, 0, 0, 1, 0, 0, 0, 0];

#[test]
fn a_rim_and_its_hole() {
    let rim = listed(&RIM, &[0]);
    let pieces: Vec<_> = rim.pieces().collect();
    assert_eq!(pieces.len(), 1);
    assert_eq!(pieces[0].region(), RegionId(0));
    let lengths: Vec<_> = pieces[0].contours().map(|steps| steps.len()).collect();
    assert_eq!(lengths, [12, 4]);
    let hole: Vec<_> = pieces[0].contours().nth(1).expect("a hole").collect();
    let first = Step {
        from: Point { x: 1, y: 1 },
        heading: Direction::East,
    };
    assert_eq!(hole[0], first);
    assert_eq!(hole[3].heading, Direction::North);
}

#[test]
fn the_other_bench_relabels() {
    let mine = listed(&RIM, &[1]);
    assert_eq!(mine.words(), [1, 1, 4, 1, 1, 2, 1, 2, 1, 2, 2, 0, 2, 1, 3]);
    assert_eq!(listed(&[2, 3, 0, 9, 1, u32::MAX, 0, 4, 4], &[1]), mine);
    assert_ne!(listed(&[1, 0, 0, 0, 1, 0, 0, 0, 0], &[1]), mine);
}

#[test]
fn names() {
    let both = listed(&RIM, &[0, 1]);
    assert_eq!(listed(&RIM, &[1, 9, 0, u32::MAX, 1]), both);
    assert_eq!(
        both.pieces()
            .map(|piece| piece.region().0)
            .collect::<Vec<_>>(),
        [0, 1]
    );
    assert_eq!(listed(&RIM, &[]).pieces().count(), 0);
}

#[test]
fn refusals() {
    let refused = |width, labels: &[u32]| {
        listing(
            Map {
                width,
                height: 1,
                paints: 1,
                labels,
            },
            &[RegionId(0)],
        )
    };
    assert_eq!(refused(2, &[0]), Err(Refusal::WrongLabelCount));
    assert_eq!(refused(16_385, &[]), Err(Refusal::SideTooLong));
}
