//! A bench's listing of its pieces, by unit steps.

use crate::{Direction, Map, Point, Refusal, RegionId};

/// The two words of the answer.
#[repr(C)]
#[derive(Default)]
struct Answer {
    number: u32,
    length: u32,
}

extern "C" {
    fn mosaic_listing(
        mode: u32,
        width: u32,
        height: u32,
        paints: u32,
        labels: *const u32,
        labels_len: usize,
        work: *mut u32,
        work_len: usize,
        named: *const u32,
        named_len: usize,
        words: *mut u32,
        words_len: usize,
        answer: *mut Answer,
    );
}

/// The pieces of the labels that are named: a label named twice counts once, and one that is not painted has no pieces. It depends on
/// where these labels lie and on nothing else, and is the same in either mode, so none is asked for.
pub fn listing(map: Map<'_>, named: &[RegionId]) -> Result<Listing, Refusal> {
    let (width, height) = (map.width as usize, map.height as usize);
    let corners = if width.max(height) <= LONGEST_SIDE {
        (width + 1) * (height + 1)
    } else {
        0
    };
    let mut work = room(8 * corners)?;
    // Room for any listing of these sides: pages that it does not reach are never touched.
    let mut words = room(15 * corners)?;
    let named: Vec<u32> = named.iter().map(|region| region.0).collect();
    let mut answer = Answer::default();
    // SAFETY: each pointer and length is the room of a vector of its own, aligned for words, and so is the answer: no two overlap, and
    // the labels are borrowed. The library's promise holds for stores of any length, whatever words they hold.
    unsafe {
        mosaic_listing(
            0,
            map.width,
            map.height,
            map.paints,
            map.labels.as_ptr(),
            map.labels.len(),
            work.as_mut_ptr(),
            work.capacity(),
            named.as_ptr(),
            named.len(),
            words.as_mut_ptr(),
            words.capacity(),
            &mut answer,
        );
    }
    match answer.number {
        0 => {
            // SAFETY: after 0 the store had room for the listing, and it is written.
            unsafe { words.set_len(answer.length as usize) };
            words.shrink_to_fit();
            Ok(Listing { words })
        }
        1 => Err(Refusal::SideTooLong),
        2 => Err(Refusal::WrongLabelCount),
        number => unreachable!("number {} with room for any listing", number),
    }
}

/// The longest side that the library takes.
const LONGEST_SIDE: usize = 16_384;

fn room(words: usize) -> Result<Vec<u32>, Refusal> {
    let mut store = Vec::new();
    store
        .try_reserve_exact(words)
        .map_err(|_| Refusal::NoMemory)?;
    Ok(store)
}

/// The pieces of a bench.
#[derive(Clone, Debug, PartialEq, Eq)]
pub struct Listing {
    words: Vec<u32>,
}

impl Listing {
    /// The words, as the library writes them.
    pub fn words(&self) -> &[u32] {
        &self.words
    }

    /// The pieces in the order of the faces.
    pub fn pieces(&self) -> Pieces<'_> {
        Pieces { rest: &self.words }
    }
}

/// Goes through the listed pieces.
#[derive(Clone, Debug)]
pub struct Pieces<'a> {
    rest: &'a [u32],
}

impl<'a> Iterator for Pieces<'a> {
    type Item = Piece<'a>;

    fn next(&mut self) -> Option<Piece<'a>> {
        let (region, count) = (*self.rest.first()?, self.rest[1]);
        let contours = Contours {
            left: count,
            rest: &self.rest[2..],
        };
        let mut behind = contours.clone();
        behind.by_ref().for_each(drop);
        self.rest = behind.rest;
        Some(Piece {
            region: RegionId(region),
            contours,
        })
    }
}

/// One piece of a listing.
#[derive(Clone, Debug)]
pub struct Piece<'a> {
    region: RegionId,
    contours: Contours<'a>,
}

impl<'a> Piece<'a> {
    /// Its label.
    pub fn region(&self) -> RegionId {
        self.region
    }

    /// Its contours, by their earliest steps.
    pub fn contours(&self) -> Contours<'a> {
        self.contours.clone()
    }
}

/// Goes through the contours of a listed piece.
#[derive(Clone, Debug)]
pub struct Contours<'a> {
    left: u32,
    rest: &'a [u32],
}

impl<'a> Iterator for Contours<'a> {
    type Item = Steps<'a>;

    fn next(&mut self) -> Option<Steps<'a>> {
        self.left = self.left.checked_sub(1)?;
        let (count, rest) = self.rest.split_first()?;
        let (steps, rest) = rest.split_at(3 * *count as usize);
        self.rest = rest;
        Some(Steps {
            words: steps.chunks_exact(3),
        })
    }

    fn size_hint(&self) -> (usize, Option<usize>) {
        (self.left as usize, Some(self.left as usize))
    }
}

impl ExactSizeIterator for Contours<'_> {}

/// Goes through the steps of a listed contour, the earliest first. The piece lies on the left.
#[derive(Clone, Debug)]
pub struct Steps<'a> {
    words: std::slice::ChunksExact<'a, u32>,
}

impl Iterator for Steps<'_> {
    type Item = Step;

    fn next(&mut self) -> Option<Step> {
        let words = self.words.next()?;
        let from = Point {
            x: words[0],
            y: words[1],
        };
        Some(Step {
            from,
            heading: Direction::ALL[words[2] as usize],
        })
    }

    fn size_hint(&self) -> (usize, Option<usize>) {
        self.words.size_hint()
    }
}

impl ExactSizeIterator for Steps<'_> {}

/// One unit of a contour.
#[derive(Clone, Copy, Debug, PartialEq, Eq)]
pub struct Step {
    pub from: Point,
    pub heading: Direction,
}
