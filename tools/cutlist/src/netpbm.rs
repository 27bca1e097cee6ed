//! Binary PGM (P5) and PPM (P6).

use std::io::{self, BufRead};

use crate::failure::Failure;
use crate::picture::{colour, Source};
use crate::progress::Stage;

struct Netpbm<R> {
    file: R,
    channels: usize,
    width: u32,
    height: u32,
    most: u32,
}

pub fn open<R: BufRead + 'static>(mut file: R) -> Result<Box<dyn Source>, Failure> {
    let mut kind = [0; 2];
    file.read_exact(&mut kind).map_err(unread)?;
    let channels = if kind[1] == b'5' { 1 } else { 3 };
    let [width, height, most] = [number(&mut file)?, number(&mut file)?, number(&mut file)?];
    if most == 0 || most > 65_535 {
        return Err(Failure::refused(format!(
            "its largest sample is {most}: it must be 1 to 65535"
        )));
    }
    Ok(Box::new(Netpbm {
        file,
        channels,
        width,
        height,
        most,
    }))
}

fn unread(error: io::Error) -> Failure {
    match error.kind() {
        io::ErrorKind::UnexpectedEof => Failure::refused("it is cut short"),
        _ => Failure::refused(format!("it cannot be read: {error}")),
    }
}

fn byte(file: &mut impl BufRead) -> Result<u8, Failure> {
    let mut byte = [0];
    file.read_exact(&mut byte).map_err(unread)?;
    Ok(byte[0])
}

/// The next number of the header and the one space behind it; before it there are spaces and comments.
fn number(file: &mut impl BufRead) -> Result<u32, Failure> {
    let mut next = byte(file)?;
    while next == b'#' || next.is_ascii_whitespace() {
        if next == b'#' {
            while byte(file)? != b'\n' {}
        }
        next = byte(file)?;
    }
    let mut value = None;
    while next.is_ascii_digit() {
        let digit = u32::from(next - b'0');
        let longer = value
            .unwrap_or(0u32)
            .checked_mul(10)
            .and_then(|tens| tens.checked_add(digit));
        value =
            Some(longer.ok_or_else(|| Failure::refused("a number in its header is too large"))?);
        next = byte(file)?;
    }
    match value {
        Some(value) if next.is_ascii_whitespace() => Ok(value),
        _ => Err(Failure::refused("its header is not that of a PPM or PGM")),
    }
}

impl<R: BufRead> Source for Netpbm<R> {
    fn sides(&self) -> (u32, u32) {
        (self.width, self.height)
    }

    fn pixels(mut self: Box<Self>, colours: &mut [u32], stage: &Stage) -> Result<(), Failure> {
        let wide = if self.most > 255 { 2 } else { 1 };
        let bytes = self.channels * wide;
        let mut line = vec![0; self.width as usize * bytes];
        for places in colours.chunks_exact_mut(self.width as usize) {
            self.file.read_exact(&mut line).map_err(unread)?;
            for (place, pixel) in places.iter_mut().zip(line.chunks_exact(bytes)) {
                let sample = |n: usize| match wide {
                    1 => u32::from(pixel[n]),
                    _ => u32::from(pixel[2 * n]) << 8 | u32::from(pixel[2 * n + 1]),
                };
                let samples = match self.channels {
                    1 => [sample(0); 3],
                    _ => [sample(0), sample(1), sample(2)],
                };
                if samples.iter().any(|&sample| sample > self.most) {
                    return Err(Failure::refused(format!(
                        "a sample is above {}, which it says is the largest",
                        self.most
                    )));
                }
                *place = colour(samples, self.most);
            }
            stage.step();
        }
        match self.file.fill_buf().map_err(unread)?.is_empty() {
            true => Ok(()),
            false => Err(Failure::refused("there are bytes behind its last pixel")),
        }
    }
}
