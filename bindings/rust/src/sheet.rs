//! Millimetres on a sheet: the machine moves of a cut list.

use std::iter::FusedIterator;

use crate::cutter::{cut_in, Map, Mode, Refusal};
use crate::ffi::Answer;
use crate::list::CutList;

// The calls as `include/mosaic.h` declares them.
extern "C" {
    pub fn mosaic_sheet_whole(
        mode: u32,
        width: u32,
        height: u32,
        paints: u32,
        sheet_width: f64,
        sheet_height: f64,
        labels: *const u32,
        labels_len: usize,
        work: *mut u32,
        work_len: usize,
        nodes: *mut u32,
        nodes_len: usize,
        segments: *mut u32,
        segments_len: usize,
        points: *mut u32,
        points_len: usize,
        references: *mut u32,
        references_len: usize,
        contours: *mut u32,
        contours_len: usize,
        faces: *mut u32,
        faces_len: usize,
        answer: *mut Answer,
    );

    pub fn mosaic_move(
        width: u32,
        height: u32,
        sheet_width: f64,
        sheet_height: f64,
        count: u32,
        reversed: u32,
        segments: *const u32,
        segments_len: usize,
        points: *const u32,
        points_len: usize,
        at: *mut [u32; 2],
        point: *mut [f64; 2],
    ) -> u32;
}

/// A sheet of veneer: its sides in millimetres, each above 0 and at most 3000.
#[derive(Clone, Copy, Debug, PartialEq)]
pub struct Sheet {
    width: f64,
    height: f64,
}

impl Sheet {
    /// None where the library answers 16: a side is not above 0, is no number, or is above 3000.
    pub fn new(width: f64, height: f64) -> Option<Sheet> {
        let fits = |side: f64| 0.0 < side && side <= 3000.0;
        (fits(width) && fits(height)).then(|| Sheet { width, height })
    }

    pub fn width(self) -> f64 {
        self.width
    }

    pub fn height(self) -> f64 {
        self.height
    }
}

/// What the machine does next, in millimetres from the sheet's upper left corner.
#[derive(Clone, Copy, Debug, PartialEq)]
pub enum Move {
    /// With the knife up.
    Travel { x: f64, y: f64 },
    /// With the knife down.
    Cut { x: f64, y: f64 },
}

/// The cut list of a map that is to be cut from a sheet.
#[derive(Clone, Debug, PartialEq)]
pub struct OnSheet {
    list: CutList,
    width: u32,
    height: u32,
    sheet: Sheet,
}

/// The cut list of a map, for a sheet.
///
/// ```
/// use mosaic::{cut_on_sheet, Map, Move, Sheet};
///
/// let map = Map { width: 2, height: 1, paints: 2, labels: &[0, 1] };
/// let sheet = Sheet::new(300.0, 200.0).expect("sides above 0 and up to 3000");
/// let moves: Vec<Move> = cut_on_sheet(map, sheet)?.moves().collect();
/// assert_eq!(moves[0], Move::Travel { x: 150.0, y: 0.0 });
/// assert_eq!(moves[1], Move::Cut { x: 300.0, y: 0.0 });
/// # Ok::<(), mosaic::Refusal>(())
/// ```
pub fn cut_on_sheet(map: Map<'_>, sheet: Sheet) -> Result<OnSheet, Refusal> {
    cut_on_sheet_in(Mode::Plain, map, sheet)
}

/// The same, its labels read in a mode.
pub fn cut_on_sheet_in(mode: Mode, map: Map<'_>, sheet: Sheet) -> Result<OnSheet, Refusal> {
    // 16 is asked last and a `Sheet` is never refused, so this is what `mosaic_sheet_whole` leaves.
    let list = cut_in(mode, map)?;
    Ok(OnSheet {
        list,
        width: map.width,
        height: map.height,
        sheet,
    })
}

impl OnSheet {
    pub fn list(&self) -> &CutList {
        &self.list
    }

    pub fn sheet(&self) -> Sheet {
        self.sheet
    }

    /// For each segment in order a travel to its first corner, then a cut for each step. None leaves the sheet.
    pub fn moves(&self) -> Moves<'_> {
        self.read(false)
    }

    /// The same with each segment read backwards: the same points, bit for bit.
    pub fn moves_reversed(&self) -> Moves<'_> {
        self.read(true)
    }

    fn read(&self, reversed: bool) -> Moves<'_> {
        Moves {
            cuts: self,
            reversed,
            at: [0, 0],
        }
    }
}

/// The moves of a cut list, one at a time.
#[derive(Clone, Debug)]
pub struct Moves<'a> {
    cuts: &'a OnSheet,
    reversed: bool,
    /// The place of the next move: a segment, and a place in it.
    at: [u32; 2],
}

impl Iterator for Moves<'_> {
    type Item = Move;

    fn next(&mut self) -> Option<Move> {
        let OnSheet {
            list,
            width,
            height,
            sheet,
        } = self.cuts;
        let (segments, points) = (&list.stores().segments, &list.stores().points);
        let mut point = [0.0; 2];
        // SAFETY: each pointer and length is that of a vector that is only read, or of an array of its own.
        let number = unsafe {
            mosaic_move(
                *width,
                *height,
                sheet.width,
                sheet.height,
                segments.len() as u32,
                u32::from(self.reversed),
                segments.as_ptr().cast(),
                8 * segments.len(),
                points.as_ptr().cast(),
                2 * points.len(),
                &mut self.at,
                &mut point,
            )
        };
        let [x, y] = point;
        match number {
            0 => Some(Move::Travel { x, y }),
            1 => Some(Move::Cut { x, y }),
            2 => None,
            number => unreachable!("number {} over the stores of a cut list", number),
        }
    }
}

/// After the end the library says the end again.
impl FusedIterator for Moves<'_> {}
