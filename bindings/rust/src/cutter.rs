//! Lends the library its stores and calls it.

use std::alloc::{alloc_zeroed, Layout};
use std::fmt;

use crate::ffi::{self, Answer};
use crate::list::{CutList, Stores};

/// A grid of labels, row by row. A label below `paints` is painted and yields faces; [`OUTSIDE`](crate::RegionId::OUTSIDE) marks a
/// pixel of no piece.
#[derive(Clone, Copy, Debug)]
pub struct Map<'a> {
    pub width: u32,
    pub height: u32,
    pub paints: u32,
    pub labels: &'a [u32],
}

/// How a map's labels are read.
#[derive(Clone, Copy, Debug, Default, PartialEq, Eq, Hash)]
pub enum Mode {
    /// Each as it is: a cut lies between any two labels that differ, painted or not.
    #[default]
    Plain,
    /// Every unpainted label as [`OUTSIDE`](crate::RegionId::OUTSIDE): no cut goes through waste.
    NoWaste,
}

impl Mode {
    /// The library's word for it.
    pub fn word(self) -> u32 {
        match self {
            Mode::Plain => 0,
            Mode::NoWaste => 1,
        }
    }
}

/// Why there is no cut list.
#[derive(Clone, Copy, Debug, PartialEq, Eq)]
pub enum Refusal {
    /// A side is above 16,384.
    SideTooLong,
    /// There are not width × height labels.
    WrongLabelCount,
    /// The stores that the map needs could not be had.
    NoMemory,
}

impl Refusal {
    /// The library's number for it; it does not see a store that could not be had.
    pub fn number(self) -> Option<u32> {
        match self {
            Refusal::SideTooLong => Some(1),
            Refusal::WrongLabelCount => Some(2),
            Refusal::NoMemory => None,
        }
    }
}

impl fmt::Display for Refusal {
    fn fmt(&self, f: &mut fmt::Formatter<'_>) -> fmt::Result {
        f.write_str(match self {
            Refusal::SideTooLong => "a side of the map is above 16384",
            Refusal::WrongLabelCount => "the label count is not width times height",
            Refusal::NoMemory => "no memory for the stores that the map needs",
        })
    }
}

impl std::error::Error for Refusal {}

/// The cut list of a map, each label read as it is.
pub fn cut(map: Map<'_>) -> Result<CutList, Refusal> {
    Cutter::new().cut(map)
}

/// The cut list of a map, its labels read in a mode.
pub fn cut_in(mode: Mode, map: Map<'_>) -> Result<CutList, Refusal> {
    Cutter::new().cut_in(mode, map)
}

/// Cuts one map after another and keeps the work store between them.
#[derive(Debug, Default)]
pub struct Cutter {
    /// What it holds before and after a call says nothing.
    work: Vec<[u32; 1]>,
}

impl Cutter {
    pub fn new() -> Cutter {
        Cutter::default()
    }

    /// The cut list of a map, each label read as it is.
    pub fn cut(&mut self, map: Map<'_>) -> Result<CutList, Refusal> {
        self.cut_in(Mode::Plain, map)
    }

    /// The cut list of a map, its labels read in a mode.
    ///
    /// The library is called once, with stores that have room for any map of these sides. Sizing first counts the map twice: that
    /// took 1.15 to 2.04 times as long (solid, blobs, stripes, noise, checker and all-distinct maps of 64² to 4096²), and so does a
    /// guess that is too small. The room costs address space, about 160 bytes for a pixel, but no memory: pages that no record
    /// reaches are never touched, and are given back. Where so much cannot be reserved, the first call only counts.
    pub fn cut_in(&mut self, mode: Mode, map: Map<'_>) -> Result<CutList, Refusal> {
        let (width, height) = (map.width as usize, map.height as usize);
        if width.max(height) <= LONGEST_SIDE {
            let words = 8 * (width + 1) * (height + 1);
            if self.work.len() < words {
                self.work = zeroed(words)?;
            }
        }
        let mut stores = roomy(width, height).unwrap_or_default();
        let mut answer = self.whole(mode, map, &mut stores);
        if answer.number > 3 {
            stores = exact(&answer)?;
            answer = self.whole(mode, map, &mut stores);
        }
        match answer.number {
            0 => Ok(CutList::new(stores.trimmed(&answer), answer)),
            1 => Err(Refusal::SideTooLong),
            2 => Err(Refusal::WrongLabelCount),
            number => unreachable!("number {} with room for all records", number),
        }
    }

    /// The call itself.
    fn whole(&mut self, mode: Mode, map: Map<'_>, stores: &mut Stores) -> Answer {
        let mut answer = Answer::default();
        let (work, work_len) = lent(&mut self.work);
        let (nodes, nodes_len) = lent(&mut stores.nodes);
        let (segments, segments_len) = lent(&mut stores.segments);
        let (points, points_len) = lent(&mut stores.points);
        let (references, references_len) = lent(&mut stores.references);
        let (contours, contours_len) = lent(&mut stores.contours);
        let (faces, faces_len) = lent(&mut stores.faces);
        // SAFETY: each pointer and length is a vector of its own, aligned for words, and so is the answer: no two overlap, and the labels
        // are borrowed. The library's promise holds for stores of any length, whatever words they hold.
        unsafe {
            ffi::mosaic_whole(
                mode.word(),
                map.width,
                map.height,
                map.paints,
                map.labels.as_ptr(),
                map.labels.len(),
                work,
                work_len,
                nodes,
                nodes_len,
                segments,
                segments_len,
                points,
                points_len,
                references,
                references_len,
                contours,
                contours_len,
                faces,
                faces_len,
                &mut answer,
            );
        }
        answer
    }
}

/// The longest side that the library takes.
pub(crate) const LONGEST_SIDE: usize = 16_384;

/// A store of records, as the library takes it: a pointer and a length in words.
pub(crate) fn lent<const N: usize>(store: &mut [[u32; N]]) -> (*mut u32, usize) {
    (store.as_mut_ptr().cast(), store.len() * N)
}

/// A store of zeroed records. The system hands such memory out page by page, when it is first written, so room that no record reaches
/// costs address space alone.
pub(crate) fn zeroed<const N: usize>(records: usize) -> Result<Vec<[u32; N]>, Refusal> {
    let layout = Layout::array::<[u32; N]>(records).map_err(|_| Refusal::NoMemory)?;
    if layout.size() == 0 {
        return Ok(Vec::new());
    }
    // SAFETY: the layout is not empty, it is that of `records` records, and zero words are records.
    unsafe {
        let start = alloc_zeroed(layout);
        if start.is_null() {
            return Err(Refusal::NoMemory);
        }
        Ok(Vec::from_raw_parts(start.cast(), records, records))
    }
}

/// Stores for any map of these sides, by the bounds that the library goes by: with so much room it counts nothing first. None where a
/// side is too long. A crack has two sides, and every contour a corner of its own: where it first steps east.
fn roomy(width: usize, height: usize) -> Result<Stores, Refusal> {
    if width.max(height) > LONGEST_SIDE {
        return Ok(Stores::default());
    }
    let corners = (width + 1) * (height + 1);
    let pixels = width * height;
    let cracks = 2 * pixels + width + height;
    Ok(Stores {
        nodes: zeroed(corners)?,
        segments: zeroed(cracks)?,
        points: zeroed(2 * cracks)?,
        references: zeroed(2 * cracks)?,
        contours: zeroed(corners)?,
        faces: zeroed(pixels)?,
    })
}

/// Stores for the counts of an answer.
fn exact(answer: &Answer) -> Result<Stores, Refusal> {
    Ok(Stores {
        nodes: zeroed(answer.nodes as usize)?,
        segments: zeroed(answer.segments as usize)?,
        points: zeroed(answer.points as usize)?,
        references: zeroed(answer.references as usize)?,
        contours: zeroed(answer.contours as usize)?,
        faces: zeroed(answer.faces as usize)?,
    })
}
