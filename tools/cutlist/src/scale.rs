//! Where a corner of the picture lies: in pixels, or in millimetres on a sheet.

use mosaic::sheet::mosaic_move;
use mosaic::Sheet;

/// The places of all columns or of all rows, and how they are written.
pub struct Axis {
    places: Vec<f64>,
    texts: Vec<Box<str>>,
}

impl Axis {
    fn new(places: Vec<f64>) -> Axis {
        // The shortest decimal that reads back as the same bits.
        let texts = places
            .iter()
            .map(|place| place.to_string().into())
            .collect();
        Axis { places, texts }
    }

    pub fn text(&self, at: u32) -> &str {
        &self.texts[at as usize]
    }

    pub fn length(&self) -> f64 {
        self.places[self.places.len() - 1]
    }

    /// The same places seen from the other end.
    pub fn turned(&self) -> Axis {
        let length = self.length();
        Axis::new(self.places.iter().map(|place| length - place).collect())
    }
}

pub struct Scale {
    pub x: Axis,
    pub y: Axis,
    pub unit: &'static str,
}

impl Scale {
    pub fn pixels(width: u32, height: u32) -> Scale {
        let axis = |side: u32| Axis::new((0..=side).map(f64::from).collect());
        Scale {
            x: axis(width),
            y: axis(height),
            unit: "",
        }
    }

    /// By the library's own arithmetic: the moves along a line through every column and row.
    pub fn sheet(width: u32, height: u32, sheet: Sheet) -> Scale {
        let corners = width.max(height) + 1;
        let points: Vec<u32> = (0..corners)
            .flat_map(|n| [n.min(width), n.min(height)])
            .collect();
        let segment = [0, corners, u32::MAX, u32::MAX, 0, 0, 0, 0];
        let mut at = [0, 0];
        let mut next = || {
            let mut point = [0.0; 2];
            // SAFETY: each pointer and length is that of an array or a vector of its own.
            let number = unsafe {
                mosaic_move(
                    width,
                    height,
                    sheet.width(),
                    sheet.height(),
                    1,
                    0,
                    segment.as_ptr(),
                    segment.len(),
                    points.as_ptr(),
                    points.len(),
                    &mut at,
                    &mut point,
                )
            };
            assert!(number < 2, "a travel or a cut for each corner");
            point
        };
        let places: Vec<[f64; 2]> = (0..corners).map(|_| next()).collect();
        let axis = |side: u32, n: usize| {
            Axis::new(
                places[..=side as usize]
                    .iter()
                    .map(|place| place[n])
                    .collect(),
            )
        };
        Scale {
            x: axis(width, 0),
            y: axis(height, 1),
            unit: "mm",
        }
    }

    /// The length of so many sides of pixels, level and upright: multiplied and then divided, as a place is.
    pub fn length(&self, [level, upright]: [u32; 2]) -> f64 {
        let along = |axis: &Axis, sides: u32| {
            f64::from(sides) * axis.length() / (axis.places.len() - 1) as f64
        };
        along(&self.x, level) + along(&self.y, upright)
    }
}
