//! A map from layers: the last layer with a 1 over a pixel gives it its number as label, the paint count is the number of layers.
//!
//! ```
//! use mosaic::{cut, layers::Layers, Map};
//!
//! let mut layers = Layers::new();
//! layers.push((0, 0), (3, 1), &[1, 1, 1])?;
//! layers.push((-1, 0), (2, 1), &[1, 1])?; // only its second column lies over the canvas
//! let (labels, paints) = layers.flatten(3, 1)?;
//! assert_eq!(labels, [1, 0, 0]);
//!
//! let list = cut(Map { width: 3, height: 1, paints, labels: &labels }).unwrap();
//! assert_eq!(list.faces().len(), 2);
//! # Ok::<(), mosaic::layers::Refusal>(())
//! ```

use std::fmt;

extern "C" {
    fn mosaic_layers(
        width: u32,
        height: u32,
        layers: *const u32,
        layers_len: usize,
        masks: *const u8,
        masks_len: usize,
        labels: *mut u32,
        labels_len: usize,
    ) -> u32;
}

/// Why there are no labels.
#[derive(Clone, Copy, Debug, PartialEq, Eq)]
pub enum Refusal {
    /// A side of the canvas is above 16,384.
    SideTooLong,
    /// There are more than 65,535 layers, the layers or their masks are not exactly whole, a mask byte is above 1, or there are not
    /// width × height labels.
    NotWhole,
    /// The labels could not be had.
    NoMemory,
}

impl Refusal {
    /// The library's number for it; it does not see a store that could not be had.
    pub fn number(self) -> Option<u32> {
        match self {
            Refusal::SideTooLong => Some(1),
            Refusal::NotWhole => Some(11),
            Refusal::NoMemory => None,
        }
    }
}

impl fmt::Display for Refusal {
    fn fmt(&self, f: &mut fmt::Formatter<'_>) -> fmt::Result {
        f.write_str(match self {
            Refusal::SideTooLong => "a side of the canvas is above 16384",
            Refusal::NotWhole => "the layers, their masks or the labels are not exactly whole",
            Refusal::NoMemory => "no memory for the labels",
        })
    }
}

impl std::error::Error for Refusal {}

/// Flattens layers into lent labels, row by row; where it refuses, no label is written.
///
/// A layer is four words: x and y offset, each the 32 bits of an `i32`, then width and height. Its mask is the next width × height
/// bytes, 0 or 1, of `masks`.
pub fn flatten(
    width: u32,
    height: u32,
    layers: &[u32],
    masks: &[u8],
    labels: &mut [u32],
) -> Result<(), Refusal> {
    // SAFETY: pointers and lengths are those of slices.
    let number = unsafe {
        call(
            width,
            height,
            layers,
            masks,
            labels.as_mut_ptr(),
            labels.len(),
        )
    };
    answer(number)
}

/// The call itself.
///
/// # Safety
/// The labels are the caller's own to write, aligned, and `labels_len` of them have room.
unsafe fn call(
    width: u32,
    height: u32,
    layers: &[u32],
    masks: &[u8],
    labels: *mut u32,
    labels_len: usize,
) -> u32 {
    unsafe {
        mosaic_layers(
            width,
            height,
            layers.as_ptr(),
            layers.len(),
            masks.as_ptr(),
            masks.len(),
            labels,
            labels_len,
        )
    }
}

fn answer(number: u32) -> Result<(), Refusal> {
    match number {
        0 => Ok(()),
        1 => Err(Refusal::SideTooLong),
        _ => Err(Refusal::NotWhole),
    }
}

/// Layers, bottom to top, taken one by one.
#[derive(Clone, Debug, Default)]
pub struct Layers {
    words: Vec<u32>,
    masks: Vec<u8>,
}

impl Layers {
    pub fn new() -> Layers {
        Layers::default()
    }

    /// How many there are.
    pub fn len(&self) -> usize {
        self.words.len() / 4
    }

    pub fn is_empty(&self) -> bool {
        self.words.is_empty()
    }

    /// One more layer on top: the offset of its upper left pixel on the canvas, its width and height, and its mask row by row, 0 or 1
    /// for each pixel. A mask of another length is refused here, a byte above 1 when the layers are flattened.
    pub fn push(
        &mut self,
        (x, y): (i32, i32),
        (width, height): (u32, u32),
        mask: &[u8],
    ) -> Result<&mut Layers, Refusal> {
        if mask.len() as u64 != u64::from(width) * u64::from(height) {
            return Err(Refusal::NotWhole);
        }
        self.words.extend([x as u32, y as u32, width, height]);
        self.masks.extend_from_slice(mask);
        Ok(self)
    }

    /// The labels of a canvas, and the paint count.
    pub fn flatten(&self, width: u32, height: u32) -> Result<(Vec<u32>, u32), Refusal> {
        let allowed = width.max(height) <= LONGEST_SIDE;
        let pixels = if allowed {
            width as usize * height as usize
        } else {
            0
        };
        let mut labels = Vec::new();
        labels
            .try_reserve_exact(pixels)
            .map_err(|_| Refusal::NoMemory)?;
        // SAFETY: so many labels have room. The library's promise holds whatever words they hold.
        let number = unsafe {
            call(
                width,
                height,
                &self.words,
                &self.masks,
                labels.as_mut_ptr(),
                pixels,
            )
        };
        answer(number)?;
        // SAFETY: after 0 all of them are written.
        unsafe { labels.set_len(pixels) };
        Ok((labels, self.len() as u32))
    }
}

/// The longest side that the library takes.
const LONGEST_SIDE: u32 = 16_384;
