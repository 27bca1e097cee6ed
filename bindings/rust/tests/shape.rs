//! What holds of the cut list of every map, on maps that no one worked by hand.

use mosaic::{CutList, Cutter, Map, NodeId, Pixel, Point, RegionId};

/// A small generator, so that a failure can be had again.
struct Dice(u64);

impl Dice {
    fn roll(&mut self, sides: u32) -> u32 {
        self.0 = self
            .0
            .wrapping_mul(6364136223846793005)
            .wrapping_add(1442695040888963407);
        ((self.0 >> 33) % u64::from(sides)) as u32
    }
}

fn label(map: &Map<'_>, x: i64, y: i64) -> u32 {
    let inside = x >= 0 && y >= 0 && x < i64::from(map.width) && y < i64::from(map.height);
    match inside {
        true => map.labels[(y * i64::from(map.width) + x) as usize],
        false => RegionId::OUTSIDE.0,
    }
}

fn cracks(map: &Map<'_>) -> u32 {
    let mut count = 0;
    for y in 0..=i64::from(map.height) {
        for x in 0..=i64::from(map.width) {
            count += u32::from(label(map, x, y) != label(map, x - 1, y));
            count += u32::from(label(map, x, y) != label(map, x, y - 1));
        }
    }
    count
}

fn one_apart(a: Point, b: Point) -> bool {
    a.x.abs_diff(b.x) + a.y.abs_diff(b.y) == 1
}

/// The sum of y over steps east less that over steps west: the number of pixels on the left.
fn pixels_within(corners: &[Point]) -> i64 {
    let next = corners.iter().cycle().skip(1);
    corners
        .iter()
        .zip(next)
        .map(|(a, b)| i64::from(a.y) * (i64::from(b.x) - i64::from(a.x)))
        .sum()
}

fn holds(map: &Map<'_>, list: &CutList) {
    let [nodes, segments, points, references, contours, faces, steps] = list.counts();
    assert_eq!(list.nodes().len(), nodes as usize);
    assert_eq!(list.segments().len(), segments as usize);
    assert_eq!(list.faces().len(), faces as usize);
    assert_eq!(steps, cracks(map));
    assert_eq!(points, steps + segments);

    for segment in list.segments() {
        let corners: Vec<Point> = segment.points().collect();
        assert!(corners.windows(2).all(|w| one_apart(w[0], w[1])));
        let ends = [segment.start(), segment.end()];
        if segment.is_ring() {
            assert_eq!(ends, [None, None]);
            assert_eq!(corners.first(), corners.last());
        } else {
            let at = |n: Option<NodeId>| list.node(n.unwrap()).corner;
            assert_eq!(Some(&at(ends[0])), corners.first());
            assert_eq!(Some(&at(ends[1])), corners.last());
        }
    }

    let mut listed = [0, 0];
    let mut painted = 0;
    let mut last = None;
    for face in list.faces() {
        let Pixel { x, y } = face.first_pixel();
        assert_eq!(map.labels[(y * map.width + x) as usize], face.region().0);
        let place = Some((face.region(), y, x));
        assert!(last < place);
        last = place;
        let mut pixels = 0;
        for contour in face.contours() {
            listed[0] += 1;
            listed[1] += contour.references().len();
            for reference in contour.references() {
                let segment = list.segment(reference.segment);
                let side = match reference.reversed {
                    false => segment.left(),
                    true => segment.right(),
                };
                assert_eq!(side, face.region());
            }
            let corners: Vec<Point> = contour.corners().collect();
            assert!(corners.windows(2).all(|w| one_apart(w[0], w[1])));
            assert!(one_apart(corners[0], corners[corners.len() - 1]));
            pixels += pixels_within(&corners);
        }
        assert!(pixels > 0);
        painted += pixels;
    }
    assert_eq!(listed, [contours as usize, references as usize]);
    let of_paint = map.labels.iter().filter(|&&l| l < map.paints).count();
    assert_eq!(painted, of_paint as i64);
}

#[test]
fn random_maps() {
    let mut dice = Dice(1);
    let mut cutter = Cutter::new();
    for _ in 0..2000 {
        let (width, height) = (dice.roll(13), dice.roll(13));
        let kinds = 1 + dice.roll(5);
        let labels: Vec<u32> = (0..width * height)
            .map(|_| match dice.roll(kinds + 1) {
                0 => RegionId::OUTSIDE.0,
                kind => kind - 1,
            })
            .collect();
        let map = Map {
            width,
            height,
            paints: dice.roll(kinds + 1),
            labels: &labels,
        };
        holds(&map, &cutter.cut(map).unwrap());
    }
}

#[test]
fn large_maps() {
    const SIDE: u32 = 600;
    fn check(paints: u32, kind: fn(u32, u32) -> u32) {
        let pixels = (0..SIDE).flat_map(|y| (0..SIDE).map(move |x| kind(x, y)));
        let labels: Vec<u32> = pixels.collect();
        let map = Map {
            width: SIDE,
            height: SIDE,
            paints,
            labels: &labels,
        };
        holds(&map, &Cutter::new().cut(map).unwrap());
    }
    check(1, |_, _| 0);
    check(2, |x, y| (x + y) % 2);
    check(SIDE * SIDE, |x, y| y * SIDE + x);
    check(SIDE / 2, |x, y| {
        x.min(y).min(SIDE - 1 - x).min(SIDE - 1 - y)
    });
}
