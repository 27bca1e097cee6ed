//! How much veneer is in each piece.

use crate::ffi::Answer;
use crate::{Map, Mode, Refusal};

extern "C" {
    fn mosaic_veneer(
        mode: u32,
        width: u32,
        height: u32,
        paints: u32,
        labels: *const u32,
        labels_len: usize,
        work: *mut u32,
        work_len: usize,
        sums: *mut i64,
        sums_len: usize,
        answer: *mut Answer,
    );
}

/// The sum of each face, in face order: y for each step east of its contours, minus y for each step west. It is the number of its pixels,
/// and all sums together are the number of painted pixels.
pub fn veneer(mode: Mode, map: Map<'_>) -> Result<Vec<i64>, Refusal> {
    let (width, height) = (map.width as usize, map.height as usize);
    let (corners, pixels) = if width.max(height) <= LONGEST_SIDE {
        ((width + 1) * (height + 1), width * height)
    } else {
        (0, 0)
    };
    let mut work: Vec<u32> = room(8 * corners)?;
    // Room for any map of these sides: pages that no sum reaches are never touched.
    let mut sums: Vec<i64> = room(pixels)?;
    let mut answer = Answer::default();
    // SAFETY: each pointer and length is the room of a vector of its own, aligned for its numbers, and so is the answer: no two overlap,
    // and the labels are borrowed. The library's promise holds for stores of any length, whatever they hold.
    unsafe {
        mosaic_veneer(
            mode.word(),
            map.width,
            map.height,
            map.paints,
            map.labels.as_ptr(),
            map.labels.len(),
            work.as_mut_ptr(),
            work.capacity(),
            sums.as_mut_ptr(),
            sums.capacity(),
            &mut answer,
        );
    }
    match answer.number {
        0 => {
            // SAFETY: after 0 the store had room for the sums, and they are written.
            unsafe { sums.set_len(answer.faces as usize) };
            sums.shrink_to_fit();
            Ok(sums)
        }
        1 => Err(Refusal::SideTooLong),
        2 => Err(Refusal::WrongLabelCount),
        number => unreachable!("number {} with room for any sums", number),
    }
}

/// The longest side that the library takes.
const LONGEST_SIDE: usize = 16_384;

fn room<T>(count: usize) -> Result<Vec<T>, Refusal> {
    let mut store = Vec::new();
    store
        .try_reserve_exact(count)
        .map_err(|_| Refusal::NoMemory)?;
    Ok(store)
}
