//! Near colours become one leaf: neighbouring regions of a map whose colours are within a limit are merged.

use std::fmt;

/// The region store's words for each paint.
pub const REGION_WORDS: usize = 12;

/// The two words of an answer.
#[repr(C)]
#[derive(Clone, Copy, Debug, Default, PartialEq, Eq)]
pub struct Merged {
    pub number: u32,
    /// The new paint count, 0 when refused.
    pub paints: u32,
}

extern "C" {
    fn mosaic_merge(
        width: u32,
        height: u32,
        paints: u32,
        labels: *mut u32,
        labels_len: usize,
        colours: *mut u8,
        colours_len: usize,
        limit: i32,
        work: *mut u32,
        work_len: usize,
        regions: *mut u32,
        regions_len: usize,
        answer: *mut Merged,
    );
}

/// The call itself, with stores of the caller's own and of any length: `include/mosaic.h` says what each holds afterwards.
#[allow(clippy::too_many_arguments)]
pub fn merge_words(
    width: u32,
    height: u32,
    paints: u32,
    labels: &mut [u32],
    colours: &mut [u8],
    limit: i32,
    work: &mut [u32],
    regions: &mut [u32],
) -> Merged {
    let work = (work.as_mut_ptr(), work.len());
    let regions = (regions.as_mut_ptr(), regions.len());
    // SAFETY: both stores are borrowed for change.
    unsafe { call(width, height, paints, labels, colours, limit, work, regions) }
}

/// # Safety
///
/// `work` and `regions` are pointers and lengths of rooms of their own, which may hold anything.
#[allow(clippy::too_many_arguments)]
unsafe fn call(
    width: u32,
    height: u32,
    paints: u32,
    labels: &mut [u32],
    colours: &mut [u8],
    limit: i32,
    work: (*mut u32, usize),
    regions: (*mut u32, usize),
) -> Merged {
    let mut answer = Merged::default();
    // SAFETY: labels and colours are borrowed for change, the caller answers for the two others, and the answer is a value of its own, so
    // no two overlap. The library's promise holds for stores of any length, whatever they hold.
    unsafe {
        mosaic_merge(
            width,
            height,
            paints,
            labels.as_mut_ptr(),
            labels.len(),
            colours.as_mut_ptr(),
            colours.len(),
            limit,
            work.0,
            work.1,
            regions.0,
            regions.1,
            &mut answer,
        );
    }
    answer
}

/// Why nothing was merged; labels and colours are as they were.
#[derive(Clone, Copy, Debug, PartialEq, Eq)]
pub enum Unmerged {
    /// A side is above 16,384.
    SideTooLong,
    /// There are not width × height labels.
    WrongLabelCount,
    /// A label is neither OUTSIDE nor below the paint count.
    UnpaintedLabel,
    /// The work and region stores could not be had.
    NoMemory,
}

impl fmt::Display for Unmerged {
    fn fmt(&self, f: &mut fmt::Formatter<'_>) -> fmt::Result {
        f.write_str(match self {
            Unmerged::SideTooLong => "a side of the map is above 16384",
            Unmerged::WrongLabelCount => "the label count is not width times height",
            Unmerged::UnpaintedLabel => "a label is neither OUTSIDE nor painted",
            Unmerged::NoMemory => "no memory for the stores that the merge needs",
        })
    }
}

impl std::error::Error for Unmerged {}

/// Merges neighbouring regions whose mean colours are no further apart than `limit`, most similar first: the Rust's
/// `LabelMap::merge_similar`. A colour is red, green and blue, one for each paint. The answer is the new paint count; the labels are
/// rewritten, and so are the colours of the new paints, the others stay. A limit below 0 merges nothing, nor do fewer than two paints.
///
/// ```
/// let mut labels = [0, 1, 1, 2];
/// let mut colours = [[10, 10, 10], [12, 10, 10], [200, 0, 0]];
/// let paints = mosaic::merge_similar(4, 1, &mut labels, &mut colours, 2)?;
/// assert_eq!((paints, labels), (2, [0, 0, 0, 1]));
/// assert_eq!(colours[..2], [[11, 10, 10], [200, 0, 0]]);
/// # Ok::<(), mosaic::Unmerged>(())
/// ```
pub fn merge_similar(
    width: u32,
    height: u32,
    labels: &mut [u32],
    colours: &mut [[u8; 3]],
    limit: i32,
) -> Result<u32, Unmerged> {
    let Ok(paints) = u32::try_from(colours.len()) else {
        return Err(Unmerged::NoMemory);
    };
    let short = width.max(height) <= 16_384;
    let words = match short {
        true => 8 * (width as usize + 1) * (height as usize + 1),
        false => 0,
    };
    let rooms = match limit >= 0 && paints >= 2 && short {
        true => REGION_WORDS * colours.len(),
        false => 0,
    };
    let (mut work, mut regions) = (room(words)?, room(rooms)?);
    let work = (work.as_mut_ptr(), words);
    let regions = (regions.as_mut_ptr(), rooms);
    let colours = colours.as_flattened_mut();
    // SAFETY: each store is the room of a vector of its own.
    let answer = unsafe { call(width, height, paints, labels, colours, limit, work, regions) };
    match answer.number {
        0 => Ok(answer.paints),
        1 => Err(Unmerged::SideTooLong),
        2 => Err(Unmerged::WrongLabelCount),
        12 => Err(Unmerged::UnpaintedLabel),
        number => unreachable!("number {number} with stores of the right length"),
    }
}

/// A store without a value: what it holds before a call is of no account.
fn room(words: usize) -> Result<Vec<u32>, Unmerged> {
    let mut store = Vec::new();
    store
        .try_reserve_exact(words)
        .map_err(|_| Unmerged::NoMemory)?;
    Ok(store)
}
