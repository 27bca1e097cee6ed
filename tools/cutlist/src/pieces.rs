//! The pieces that are written, and their lines with a corner only where they turn.

use mosaic::{Contour, CutList, Face, Pixel, Point, Segment};

use crate::arguments::Arguments;
use crate::failure::Failure;

/// A cut list and what of it is asked for.
pub struct Pieces<'a> {
    pub list: &'a CutList,
    colours: &'a [[u8; 3]],
    asked: &'a Arguments,
    /// For each segment whether it is a cut of a piece that is asked for; empty where all are.
    used: Vec<bool>,
}

impl<'a> Pieces<'a> {
    /// The pieces of `--only` and `--first`, or all.
    pub fn new(
        list: &'a CutList,
        colours: &'a [[u8; 3]],
        asked: &'a Arguments,
    ) -> Result<Pieces<'a>, Failure> {
        if let Some(region) = asked
            .only
            .iter()
            .find(|&&region| region as usize >= colours.len())
        {
            let count = colours.len();
            return Err(Failure::refused(format!(
                "there is no region {region}: there are {count}, from 0 on"
            )));
        }
        let mut pieces = Pieces {
            list,
            colours,
            asked,
            used: Vec::new(),
        };
        if let Some(Pixel { x, y }) = asked
            .first
            .iter()
            .find(|&&first| !pieces.faces().any(|face| face.first_pixel() == first))
        {
            return Err(Failure::refused(format!(
                "no piece has its first pixel at {x},{y}"
            )));
        }
        if !pieces.all() {
            let mut used = vec![false; list.segments().len()];
            let contours = pieces.faces().flat_map(|face| face.contours());
            for reference in contours.flat_map(|contour| contour.references()) {
                used[reference.segment.0 as usize] = true;
            }
            pieces.used = used;
        }
        Ok(pieces)
    }

    fn all(&self) -> bool {
        self.asked.only.is_empty() && self.asked.first.is_empty()
    }

    pub fn faces(&self) -> impl Iterator<Item = Face<'a>> + '_ {
        let Arguments { only, first, .. } = self.asked;
        let wanted =
            |face: &Face| only.contains(&face.region().0) || first.contains(&face.first_pixel());
        self.list
            .faces()
            .filter(move |face| self.all() || wanted(face))
    }

    /// The cuts, each once.
    pub fn cuts(&self) -> impl Iterator<Item = Segment<'a>> + '_ {
        self.list
            .segments()
            .filter(|segment| self.is_cut(segment.id().0))
    }

    pub fn is_cut(&self, segment: u32) -> bool {
        self.used.is_empty() || self.used[segment as usize]
    }

    /// A region's colour, as `#rrggbb`.
    pub fn colour(&self, face: &Face) -> String {
        let [red, green, blue] = self.colours[face.region().0 as usize];
        format!("#{red:02x}{green:02x}{blue:02x}")
    }
}

/// Whether a line goes straight on at `b`.
fn straight(a: Point, b: Point, c: Point) -> bool {
    (a.x == b.x && b.x == c.x) || (a.y == b.y && b.y == c.y)
}

/// The turns of a contour, in order.
pub fn round(contour: &Contour, turns: &mut Vec<Point>) {
    turns.clear();
    for corner in contour.corners() {
        add(turns, corner);
    }
    // Where the line closes it may go straight on.
    while let [first, second, .., last] = turns[..] {
        if !straight(last, first, second) {
            break;
        }
        turns.remove(0);
    }
    while let [first, .., before, last] = turns[..] {
        if !straight(before, last, first) {
            break;
        }
        turns.pop();
    }
}

/// The ends and turns of a segment; a ring's last is its first again.
pub fn along(segment: &Segment, turns: &mut Vec<Point>) {
    turns.clear();
    for corner in segment.points() {
        add(turns, corner);
    }
}

fn add(turns: &mut Vec<Point>, corner: Point) {
    if let [.., before, last] = turns[..] {
        if straight(before, last, corner) {
            turns.pop();
        }
    }
    turns.push(corner);
}

/// Pixels inside a contour with these turns, those of a hole counted down: over a face's contours what `mosaic_veneer` gives, contour by contour.
pub fn sum(turns: &[Point]) -> i64 {
    let next = turns.iter().cycle().skip(1);
    let east = |(a, b): (&Point, &Point)| i64::from(a.y) * (i64::from(b.x) - i64::from(a.x));
    turns.iter().zip(next).map(east).sum()
}
