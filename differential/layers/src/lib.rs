//! The library's call, and a small generator.

use std::mem::MaybeUninit;

extern "C" {
    fn mosaic_layers(
        width: u32,
        height: u32,
        layers: *const u32,
        layers_len: usize,
        masks: *const u8,
        masks_len: usize,
        labels: *mut u32,
        labels_len: usize,
    ) -> u32;
}

/// The library's number; what it leaves is in the labels.
pub fn flatten(width: u32, height: u32, layers: &[u32], masks: &[u8], labels: &mut [u32]) -> u32 {
    let room: *mut [u32] = labels;
    // SAFETY: the library writes nothing but words.
    let room = unsafe { &mut *(room as *mut [MaybeUninit<u32>]) };
    flatten_room(width, height, layers, masks, room)
}

/// The same into labels that hold nothing yet.
pub fn flatten_room(
    width: u32,
    height: u32,
    layers: &[u32],
    masks: &[u8],
    labels: &mut [MaybeUninit<u32>],
) -> u32 {
    // SAFETY: pointers and lengths are those of slices; the library's promise holds whatever the labels hold.
    unsafe {
        mosaic_layers(
            width,
            height,
            layers.as_ptr(),
            layers.len(),
            masks.as_ptr(),
            masks.len(),
            labels.as_mut_ptr().cast(),
            labels.len(),
        )
    }
}

/// The same layers in every run.
pub struct Dice(pub u64);

impl Dice {
    pub fn roll(&mut self, sides: u32) -> u32 {
        self.0 = self
            .0
            .wrapping_mul(6364136223846793005)
            .wrapping_add(1442695040888963407);
        (self.0 >> 33) as u32 % sides
    }
}
