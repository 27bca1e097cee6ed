//! How much memory a picture takes, and how much there is.

use std::fs;

use crate::failure::Failure;

const OUTSIDE: u32 = u32::MAX;

/// For each pixel: its label, and the library's eight words of work.
const PIXEL: u64 = 4 + 32;

/// For each cut side of a pixel, at most: a segment (32), two points (16), two references (8), two thirds of a node (16), half a contour (4)
/// and half a face (10).
const CRACK: u64 = 86;

/// For each colour in a merge: the region store.
const COLOUR: u64 = 4 * mosaic::REGION_WORDS as u64;

/// What any picture of these sides takes.
pub fn least(width: u32, height: u32) -> u64 {
    PIXEL * (u64::from(width) + 1) * (u64::from(height) + 1)
}

/// What a merge of a picture with so many colours takes.
pub fn merge(width: u32, height: u32, colours: usize) -> u64 {
    least(width, height) + COLOUR * colours as u64
}

/// What the cut list of these labels takes at most.
pub fn most(width: u32, height: u32, labels: &[u32]) -> u64 {
    least(width, height) + CRACK * cracks(width as usize, labels)
}

/// The unit cuts: sides between two pixels with different labels. Off the map every label is OUTSIDE.
fn cracks(width: usize, labels: &[u32]) -> u64 {
    let differ = |(a, b): (&u32, &u32)| usize::from(a != b);
    let mut count = 0;
    let mut above = vec![OUTSIDE; width];
    for row in labels.chunks_exact(width) {
        count += above.iter().zip(row).map(differ).sum::<usize>();
        count += row.iter().zip(&row[1..]).map(differ).sum::<usize>();
        count += usize::from(row[0] != OUTSIDE) + usize::from(row[width - 1] != OUTSIDE);
        above.copy_from_slice(row);
    }
    count += above.iter().filter(|&&label| label != OUTSIDE).count();
    count as u64
}

/// The memory that may be taken, in bytes.
pub struct Budget(Option<u64>);

impl Budget {
    /// The megabytes that the user allows, or what the machine has to spare.
    pub fn new(megabytes: Option<u64>) -> Budget {
        Budget(match megabytes {
            Some(megabytes) => Some(megabytes.saturating_mul(1_000_000)),
            None => spare(),
        })
    }

    /// Refuses what does not fit.
    pub fn allow(&self, needed: u64, what: &str) -> Result<(), Failure> {
        match self.0 {
            Some(spare) if needed > spare => Err(Failure::refused(format!(
                "{what} needs {} of memory, and there are {} to spare",
                size(needed),
                size(spare)
            ))),
            _ => Ok(()),
        }
    }
}

/// Where the system tells: what is free, within the group's limit.
fn spare() -> Option<u64> {
    let table = fs::read_to_string("/proc/meminfo").ok()?;
    let line = table
        .lines()
        .find(|line| line.starts_with("MemAvailable:"))?;
    let free = 1024 * line.split_whitespace().nth(1)?.parse::<u64>().ok()?;
    let group = |name: &str| {
        let text = fs::read_to_string(format!("/sys/fs/cgroup/{name}")).ok()?;
        text.trim().parse::<u64>().ok()
    };
    match (group("memory.max"), group("memory.current")) {
        (Some(limit), Some(taken)) => Some(free.min(limit.saturating_sub(taken))),
        _ => Some(free),
    }
}

/// A number of bytes for people.
pub fn size(bytes: u64) -> String {
    match bytes {
        0..=9_999_999 => format!("{:.1} MB", bytes as f64 / 1e6),
        10_000_000..=999_999_999 => format!("{:.0} MB", bytes as f64 / 1e6),
        _ => format!("{:.1} GB", bytes as f64 / 1e9),
    }
}
