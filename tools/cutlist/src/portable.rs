//! PNG, by the crate `png`. It is lent only the parts that tell the pixels, and that the file has an end is asked here, since the crate stops
//! at the last row.

use std::fs::File;
use std::io::{self, Read, Seek, SeekFrom};

use png::{BitDepth, ColorType, Decoder, DecodingError, Limits, Reader, Transformations};

use crate::failure::Failure;
use crate::picture::{colour, Source, LONGEST_SIDE, OUTSIDE};
use crate::progress::Stage;

pub fn open(mut file: File) -> Result<Box<dyn Source>, Failure> {
    let sides = header(&mut file)?;
    // Before the decoder makes room for a row of a side that nobody takes.
    if sides.0.max(sides.1) > LONGEST_SIDE {
        return Ok(Box::new(Unread(sides)));
    }
    let parts = needed(&mut file)?.into_iter();
    let file = Parts {
        file,
        parts,
        left: 0,
    };
    let mut decoder = Decoder::new_with_limits(file, Limits { bytes: 1 << 28 });
    decoder.set_transformations(Transformations::EXPAND);
    Ok(Box::new(decoder.read_info().map_err(damaged)?))
}

fn damaged(error: DecodingError) -> Failure {
    Failure::refused(format!("the PNG is damaged: {error}"))
}

fn cut_short(error: io::Error) -> Failure {
    match error.kind() {
        io::ErrorKind::UnexpectedEof => Failure::refused("the PNG is damaged: it is cut short"),
        _ => Failure::refused(format!("it cannot be read: {error}")),
    }
}

/// The sides that the header tells.
fn header(file: &mut File) -> Result<(u32, u32), Failure> {
    let mut start = [0; 24];
    file.read_exact(&mut start).map_err(cut_short)?;
    let word =
        |at: usize| u32::from_be_bytes([start[at], start[at + 1], start[at + 2], start[at + 3]]);
    match &start[12..16] {
        b"IHDR" => Ok((word(16), word(20))),
        _ => Err(Failure::refused("the PNG is damaged: it has no header")),
    }
}

/// Goes from chunk to chunk up to the end. Gives the parts of the file, as start and length, that tell the pixels: what else a PNG may hold
/// (texts, profiles, the frames of an animation) is not looked at, and so cannot do harm.
fn needed(file: &mut File) -> Result<Vec<(u64, u64)>, Failure> {
    let mut at = 8;
    let mut parts: Vec<(u64, u64)> = vec![(0, at)];
    loop {
        file.seek(SeekFrom::Start(at)).map_err(cut_short)?;
        let mut chunk = [0; 8];
        file.read_exact(&mut chunk).map_err(cut_short)?;
        let [a, b, c, d, name @ ..] = chunk;
        let length = 12 + u64::from(u32::from_be_bytes([a, b, c, d]));
        match &name {
            b"IHDR" | b"PLTE" | b"tRNS" | b"IDAT" | b"IEND" => match parts.last_mut() {
                Some((start, long)) if *start + *long == at => *long += length,
                _ => parts.push((at, length)),
            },
            [b'a'..=b'z', ..] => (),
            _ => {
                return Err(Failure::refused(
                    "the PNG is damaged: it has a part of no known kind",
                ))
            }
        }
        at += length;
        if &name == b"IEND" {
            break;
        }
    }
    let mut check = [0; 4];
    file.seek(SeekFrom::Start(at - 4)).map_err(cut_short)?;
    file.read_exact(&mut check).map_err(cut_short)?;
    match check {
        [0xae, 0x42, 0x60, 0x82] => Ok(parts),
        _ => Err(Failure::refused(
            "the PNG is damaged: its end has a wrong checksum",
        )),
    }
}

/// Parts of a file, read one after another.
struct Parts {
    file: File,
    parts: std::vec::IntoIter<(u64, u64)>,
    left: u64,
}

impl Read for Parts {
    fn read(&mut self, room: &mut [u8]) -> io::Result<usize> {
        while self.left == 0 {
            let Some((start, length)) = self.parts.next() else {
                return Ok(0);
            };
            self.file.seek(SeekFrom::Start(start))?;
            self.left = length;
        }
        let count = self.file.by_ref().take(self.left).read(room)?;
        self.left -= count as u64;
        Ok(count)
    }
}

/// A picture that is refused for its sides.
struct Unread((u32, u32));

impl Source for Unread {
    fn sides(&self) -> (u32, u32) {
        self.0
    }

    fn pixels(self: Box<Self>, _: &mut [u32], _: &Stage) -> Result<(), Failure> {
        unreachable!("its sides are refused")
    }
}

impl Source for Reader<Parts> {
    fn sides(&self) -> (u32, u32) {
        self.info().size()
    }

    fn pixels(mut self: Box<Self>, colours: &mut [u32], stage: &Stage) -> Result<(), Failure> {
        let (width, height) = self.info().size();
        let kind = self.output_color_type();
        let bytes = kind.0.samples() * if kind.1 == BitDepth::Sixteen { 2 } else { 1 };
        let lines: Vec<Line> = match self.info().interlaced {
            false => whole_lines(height as usize).collect(),
            true => PASSES
                .into_iter()
                .flat_map(|pass| lines_of(pass, width as usize, height as usize))
                .collect(),
        };
        for Line { first, step, y } in lines {
            let pixels = (width as usize - first).div_ceil(step);
            let line = self.next_row().map_err(damaged)?;
            let Some(line) = line.filter(|line| line.data().len() == pixels * bytes) else {
                return Err(Failure::refused(
                    "the PNG is damaged: there are not as many pixels as it says",
                ));
            };
            let start = y * width as usize;
            let places = colours[start..start + width as usize]
                .iter_mut()
                .skip(first)
                .step_by(step);
            for (place, samples) in places.zip(line.data().chunks_exact(bytes)) {
                *place = pixel(kind, samples);
            }
            stage.step();
        }
        // Asks for the checksum of the last data.
        match self.next_row().map_err(damaged)? {
            None => Ok(()),
            Some(_) => Err(Failure::refused(
                "the PNG is damaged: there are more pixels than it says",
            )),
        }
    }
}

/// Where a line of the file lies: its first column, the step between its columns, and its row.
struct Line {
    first: usize,
    step: usize,
    y: usize,
}

fn whole_lines(height: usize) -> impl Iterator<Item = Line> {
    (0..height).map(|y| Line {
        first: 0,
        step: 1,
        y,
    })
}

/// The seven passes of an interlaced picture: first column, step, first row, step.
const PASSES: [[usize; 4]; 7] = [
    [0, 8, 0, 8],
    [4, 8, 0, 8],
    [0, 4, 4, 8],
    [2, 4, 0, 4],
    [0, 2, 2, 4],
    [1, 2, 0, 2],
    [0, 1, 1, 2],
];

/// A pass without columns has no lines.
fn lines_of(
    [first, step, top, down]: [usize; 4],
    width: usize,
    height: usize,
) -> impl Iterator<Item = Line> {
    let end = if first < width { height } else { 0 };
    (top..end)
        .step_by(down)
        .map(move |y| Line { first, step, y })
}

/// The colour of a pixel with these bytes.
fn pixel((kind, depth): (ColorType, BitDepth), bytes: &[u8]) -> u32 {
    let deep = depth == BitDepth::Sixteen;
    let sample = |n: usize| match deep {
        true => u32::from(bytes[2 * n]) << 8 | u32::from(bytes[2 * n + 1]),
        false => u32::from(bytes[n]),
    };
    let most = if deep { 65_535 } else { 255 };
    let alpha = match kind {
        ColorType::GrayscaleAlpha => sample(1),
        ColorType::Rgba => sample(3),
        _ => most,
    };
    if 2 * alpha < most {
        return OUTSIDE;
    }
    let samples = match kind {
        ColorType::Grayscale | ColorType::GrayscaleAlpha => [sample(0); 3],
        _ => [sample(0), sample(1), sample(2)],
    };
    match deep {
        true => colour(samples, most),
        false => samples[0] << 16 | samples[1] << 8 | samples[2],
    }
}
