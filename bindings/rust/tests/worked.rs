//! The maps of docs/RULES.md, worked by hand there.

use mosaic::{
    cut, CutList, Direction, Map, NodeId, Pixel, Point, Refusal, RegionId, SegRef, SegmentId,
};

const OUTSIDE: u32 = RegionId::OUTSIDE.0;

fn list(width: u32, height: u32, paints: u32, labels: &[u32]) -> CutList {
    let map = Map {
        width,
        height,
        paints,
        labels,
    };
    cut(map).expect("an accepted map")
}

fn refusal(width: u32, height: u32, labels: &[u32]) -> Refusal {
    let map = Map {
        width,
        height,
        paints: 1,
        labels,
    };
    cut(map).expect_err("a refused map")
}

fn forward(segment: u32) -> SegRef {
    SegRef {
        segment: SegmentId(segment),
        reversed: false,
    }
}

fn reversed(segment: u32) -> SegRef {
    SegRef {
        segment: SegmentId(segment),
        reversed: true,
    }
}

/// Each face as its region and the references of its contours.
fn faces(list: &CutList) -> Vec<(u32, Vec<Vec<SegRef>>)> {
    list.faces()
        .map(|face| {
            let contours = face.contours().map(|c| c.references().collect()).collect();
            (face.region().0, contours)
        })
        .collect()
}

fn points(list: &CutList, reference: SegRef) -> Vec<(u32, u32)> {
    list.path(reference).map(|p| (p.x, p.y)).collect()
}

#[test]
fn maps_without_pixels() {
    for (width, height) in [(0, 0), (3, 0), (0, 3), (16_384, 0)] {
        let empty = list(width, height, 1, &[]);
        assert_eq!(empty.counts(), [0; 7]);
        assert_eq!(empty.nodes().len(), 0);
        assert_eq!(empty.segments().len(), 0);
        assert_eq!(empty.faces().len(), 0);
    }
}

#[test]
fn one_pixel() {
    let one = list(1, 1, 1, &[0]);
    assert_eq!(one.counts(), [0, 1, 5, 1, 1, 1, 4]);
    let ring = one.segment(SegmentId(0));
    assert!(ring.is_ring());
    assert_eq!((ring.start(), ring.end()), (None, None));
    assert_eq!(
        (ring.left(), ring.right()),
        (RegionId::OUTSIDE, RegionId(0))
    );
    assert_eq!(ring.first_direction(), Direction::East);
    assert_eq!(ring.last_direction(), None);
    let around = [(0, 0), (1, 0), (1, 1), (0, 1), (0, 0)];
    assert_eq!(points(&one, forward(0)), around);
    assert_eq!(faces(&one), [(0, vec![vec![reversed(0)]])]);
}

#[test]
fn one_pixel_without_a_face() {
    assert_eq!(list(1, 1, 1, &[7]).counts(), [0, 1, 5, 0, 0, 0, 4]);
    assert_eq!(list(1, 1, 1, &[OUTSIDE]).counts(), [0; 7]);
}

#[test]
fn the_highest_label() {
    let highest = list(1, 1, 4_294_967_295, &[4_294_967_294]);
    assert_eq!(faces(&highest), [(4_294_967_294, vec![vec![reversed(0)]])]);
}

#[test]
fn two_pixels() {
    let pair = list(2, 1, 2, &[0, 1]);
    assert_eq!(pair.counts(), [2, 3, 10, 4, 2, 2, 7]);

    let out = |n| Direction::ALL.map(|d| pair.node(NodeId(n)).out(d));
    assert_eq!(pair.node(NodeId(0)).corner, Point { x: 1, y: 0 });
    assert_eq!(
        out(0),
        [None, Some(forward(0)), Some(forward(1)), Some(forward(2))]
    );
    assert_eq!(pair.node(NodeId(1)).corner, Point { x: 1, y: 1 });
    assert_eq!(
        out(1),
        [
            Some(reversed(1)),
            Some(reversed(0)),
            None,
            Some(reversed(2))
        ]
    );

    let sides: Vec<_> = pair.segments().map(|s| (s.left().0, s.right().0)).collect();
    assert_eq!(sides, [(OUTSIDE, 1), (1, 0), (0, OUTSIDE)]);
    let headings: Vec<_> = pair
        .segments()
        .map(|s| (s.first_direction(), s.last_direction().unwrap()))
        .collect();
    let (east, south, west) = (Direction::East, Direction::South, Direction::West);
    assert_eq!(headings, [(east, west), (south, south), (west, east)]);
    for segment in pair.segments() {
        assert_eq!(segment.start(), Some(NodeId(0)));
        assert_eq!(segment.end(), Some(NodeId(1)));
    }
    assert_eq!(points(&pair, forward(0)), [(1, 0), (2, 0), (2, 1), (1, 1)]);
    assert_eq!(points(&pair, forward(1)), [(1, 0), (1, 1)]);
    assert_eq!(points(&pair, reversed(2)), [(1, 1), (0, 1), (0, 0), (1, 0)]);

    assert_eq!(
        faces(&pair),
        [
            (0, vec![vec![reversed(1), forward(2)]]),
            (1, vec![vec![reversed(0), forward(1)]]),
        ]
    );
    let contour = pair.faces().next().unwrap().contours().next().unwrap();
    let corners: Vec<_> = contour.corners().map(|p| (p.x, p.y)).collect();
    assert_eq!(corners, [(1, 0), (0, 0), (0, 1), (1, 1)]);
}

#[test]
fn two_patches_of_one_label() {
    let stripes = list(3, 1, 2, &[0, 1, 0]);
    assert_eq!(stripes.counts(), [4, 6, 16, 8, 3, 3, 10]);
    let regions: Vec<_> = stripes.faces().map(|f| f.region().0).collect();
    assert_eq!(regions, [0, 0, 1]);
    let pixels: Vec<_> = stripes.faces().map(|f| f.first_pixel()).collect();
    assert_eq!(pixels, [0, 2, 1].map(|x| Pixel { x, y: 0 }));
}

#[test]
fn a_board_of_four() {
    let board = list(2, 2, 2, &[0, 1, 1, 0]);
    assert_eq!(board.counts(), [5, 8, 20, 12, 2, 2, 12]);
    for (_, contours) in faces(&board) {
        assert_eq!(contours.len(), 1);
        assert_eq!(contours[0].len(), 6);
    }
}

#[test]
fn a_hole() {
    let panel = list(3, 3, 2, &[0, 0, 0, 0, 1, 0, 0, 0, 0]);
    assert_eq!(panel.counts(), [0, 2, 18, 3, 3, 2, 16]);
    assert_eq!(
        faces(&panel),
        [
            (0, vec![vec![reversed(0)], vec![forward(1)]]),
            (1, vec![vec![reversed(1)]]),
        ]
    );
}

#[test]
fn islands_join_across_corners() {
    let o = OUTSIDE;
    let map = [0, o, o, o, o, 0, 0, 0, o, 0, 1, 0, o, 0, 0, 0];
    let list = list(4, 4, 2, &map);
    let pixels: Vec<_> = list.faces().map(|f| f.first_pixel()).collect();
    assert_eq!(pixels, [Pixel { x: 0, y: 0 }, Pixel { x: 2, y: 2 }]);
}

#[test]
fn refusals() {
    assert_eq!(refusal(16_385, 0, &[]), Refusal::SideTooLong);
    assert_eq!(refusal(16_385, 0, &[0]), Refusal::SideTooLong);
    assert_eq!(refusal(0, 16_385, &[]), Refusal::SideTooLong);
    assert_eq!(refusal(u32::MAX, u32::MAX, &[]), Refusal::SideTooLong);
    assert_eq!(refusal(16_384, 0, &[0]), Refusal::WrongLabelCount);
    assert_eq!(refusal(2, 1, &[0]), Refusal::WrongLabelCount);
    assert_eq!(refusal(2, 1, &[0, 0, 0]), Refusal::WrongLabelCount);
    assert_eq!(Refusal::SideTooLong.number(), Some(1));
    assert_eq!(Refusal::WrongLabelCount.number(), Some(2));
    assert_eq!(Refusal::NoMemory.number(), None);
}
