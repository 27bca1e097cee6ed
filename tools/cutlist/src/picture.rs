//! A picture as labels: each colour a paint, in the order in which they come row by row.

use std::fs::File;
use std::io::{self, BufReader, Read, Seek, SeekFrom};
use std::path::Path;

use crate::failure::Failure;
use crate::memory::{self, Budget};
use crate::progress::Stage;
use crate::{netpbm, portable};

/// The label of a pixel of no piece, and what it has for a colour while a picture is read.
pub const OUTSIDE: u32 = u32::MAX;

pub const LONGEST_SIDE: u32 = 16_384;

#[derive(Debug)]
pub struct Picture {
    pub width: u32,
    pub height: u32,
    pub labels: Vec<u32>,
    /// Red, green and blue of each paint.
    pub colours: Vec<[u8; 3]>,
}

/// What a reader of one kind of file gives: the sides first, and the pixels when there is room for them.
pub trait Source {
    fn sides(&self) -> (u32, u32);

    /// Writes each pixel's colour, as 0xRRGGBB or OUTSIDE, into its place.
    fn pixels(self: Box<Self>, colours: &mut [u32], stage: &Stage) -> Result<(), Failure>;
}

impl Picture {
    pub fn map(&self) -> mosaic::Map<'_> {
        mosaic::Map {
            width: self.width,
            height: self.height,
            paints: self.colours.len() as u32,
            labels: &self.labels,
        }
    }
}

/// Looks at a file's first bytes.
pub fn open(path: &Path) -> Result<Box<dyn Source>, Failure> {
    let unread = |error: io::Error| Failure::refused(format!("it cannot be read: {error}"));
    let mut file = File::open(path).map_err(unread)?;
    if file.metadata().map_err(unread)?.is_dir() {
        return Err(Failure::refused("it is a folder"));
    }
    let mut start = Vec::new();
    file.by_ref()
        .take(8)
        .read_to_end(&mut start)
        .map_err(unread)?;
    file.seek(SeekFrom::Start(0)).map_err(unread)?;
    match &start[..] {
        b"\x89PNG\r\n\x1a\n" => portable::open(file),
        [b'P', b'5' | b'6', ..] => netpbm::open(BufReader::new(file)),
        [] => Err(Failure::refused("the file is empty")),
        _ => Err(Failure::refused(
            "it is neither a PNG nor a binary PPM or PGM",
        )),
    }
}

/// Reads the picture where the library takes its sides and there is memory for it.
pub fn read(source: Box<dyn Source>, budget: &Budget, stage: &Stage) -> Result<Picture, Failure> {
    let (width, height) = source.sides();
    if width == 0 || height == 0 {
        return Err(Failure::refused("it has no pixels"));
    }
    if width.max(height) > LONGEST_SIDE {
        return Err(Failure::numbered(
            1,
            format!("a side of {width} x {height} pixels is above {LONGEST_SIDE}"),
        ));
    }
    let what = format!("a picture of {width} x {height} pixels");
    budget.allow(memory::least(width, height), &what)?;
    let mut labels = vec![OUTSIDE; width as usize * height as usize];
    source.pixels(&mut labels, stage)?;
    let colours = number(&mut labels);
    Ok(Picture {
        width,
        height,
        labels,
        colours,
    })
}

/// Puts each colour's number in its place.
fn number(pixels: &mut [u32]) -> Vec<[u8; 3]> {
    let mut colours = Vec::new();
    // One more than a colour's number, or 0: zeroed memory is only taken where it is touched.
    let mut numbers = vec![0u32; 1 << 24];
    let mut last = (OUTSIDE, OUTSIDE);
    for pixel in pixels {
        if *pixel != last.0 {
            let number = &mut numbers[*pixel as usize & 0xff_ffff];
            let label = match *pixel {
                OUTSIDE => OUTSIDE,
                colour => {
                    if *number == 0 {
                        let [_, red, green, blue] = colour.to_be_bytes();
                        colours.push([red, green, blue]);
                        *number = colours.len() as u32;
                    }
                    *number - 1
                }
            };
            last = (*pixel, label);
        }
        *pixel = last.1;
    }
    colours
}

/// A colour of three channels with samples from 0 to `most`, in 8 bits a channel: the nearest.
pub fn colour(samples: [u32; 3], most: u32) -> u32 {
    let byte = |sample: u32| (sample * 255 + most / 2) / most;
    byte(samples[0]) << 16 | byte(samples[1]) << 8 | byte(samples[2])
}
