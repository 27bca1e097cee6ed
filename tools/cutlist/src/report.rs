//! How much veneer is in each piece, as a table.

use std::io::{Result, Write};

use mosaic::{Face, Point};

use crate::pieces::{round, sum, Pieces};
use crate::progress::Stage;
use crate::scale::Scale;

/// What is measured of a piece.
pub struct Measures {
    pub pixels: i64,
    /// The corners of its bounding box.
    low: Point,
    high: Point,
    /// Level and upright sides of its pixels, along outlines and along holes.
    outline: [u32; 2],
    holes: [u32; 2],
}

/// Over a buffer of the caller's.
pub fn measure(face: &Face, turns: &mut Vec<Point>) -> Measures {
    let mut measures = Measures {
        pixels: 0,
        low: Point {
            x: u32::MAX,
            y: u32::MAX,
        },
        high: Point { x: 0, y: 0 },
        outline: [0, 0],
        holes: [0, 0],
    };
    for contour in face.contours() {
        round(&contour, turns);
        let inside = sum(turns);
        measures.pixels += inside;
        let line = match inside > 0 {
            true => &mut measures.outline,
            false => &mut measures.holes,
        };
        for (a, b) in turns.iter().zip(turns.iter().cycle().skip(1)) {
            line[0] += a.x.abs_diff(b.x);
            line[1] += a.y.abs_diff(b.y);
        }
        for corner in turns.iter() {
            let Measures { low, high, .. } = &mut measures;
            (low.x, low.y) = (low.x.min(corner.x), low.y.min(corner.y));
            (high.x, high.y) = (high.x.max(corner.x), high.y.max(corner.y));
        }
    }
    measures
}

/// A line for each piece. Sides and lengths are in the scale's unit, which the heads of the columns name.
pub fn write(out: &mut dyn Write, pieces: &Pieces, scale: &Scale, stage: &Stage) -> Result<()> {
    let unit = if scale.unit.is_empty() {
        "px"
    } else {
        scale.unit
    };
    write!(out, "region,colour,first_x,first_y,pixels")?;
    for head in ["left", "top", "right", "bottom", "outline", "holes"] {
        write!(out, ",{head}_{unit}")?;
    }
    writeln!(out)?;
    let mut turns = Vec::new();
    for face in pieces.faces() {
        let (first, found) = (face.first_pixel(), measure(&face, &mut turns));
        write!(
            out,
            "{},{},{},{},{}",
            face.region().0,
            pieces.colour(&face),
            first.x,
            first.y,
            found.pixels
        )?;
        for corner in [found.low, found.high] {
            write!(
                out,
                ",{},{}",
                scale.x.text(corner.x),
                scale.y.text(corner.y)
            )?;
        }
        let [outline, holes] = [found.outline, found.holes].map(|line| scale.length(line));
        writeln!(out, ",{outline},{holes}")?;
        stage.step();
    }
    Ok(())
}
