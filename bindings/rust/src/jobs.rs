//! Job files: a cut list as bytes to pass on, and what is left of a file that was cut short.

use std::fmt;

use crate::ffi::Answer;
use crate::{Map, Refusal};

extern "C" {
    fn mosaic_write(
        width: u32,
        height: u32,
        paints: u32,
        labels: *const u32,
        labels_len: usize,
        work: *mut u32,
        work_len: usize,
        nodes: *mut u32,
        nodes_len: usize,
        segments: *mut u32,
        segments_len: usize,
        points: *mut u32,
        points_len: usize,
        references: *mut u32,
        references_len: usize,
        contours: *mut u32,
        contours_len: usize,
        faces: *mut u32,
        faces_len: usize,
        file: *mut u8,
        file_len: usize,
        answer: *mut Answer,
        length: *mut u64,
    );

    fn mosaic_salvage(
        file: *const u8,
        file_len: usize,
        out: *mut u8,
        out_len: usize,
        answer: *mut [u64; 3],
    );
}

/// Why there is no job file.
#[derive(Clone, Copy, Debug, PartialEq, Eq)]
pub enum WriteRefusal {
    /// There is no cut list.
    Map(Refusal),
    /// The paint count is above 65,535.
    TooManyPaints,
}

impl WriteRefusal {
    /// The library's number for it; it does not see a store that could not be had.
    pub fn number(self) -> Option<u32> {
        match self {
            WriteRefusal::Map(refusal) => refusal.number(),
            WriteRefusal::TooManyPaints => Some(19),
        }
    }
}

impl fmt::Display for WriteRefusal {
    fn fmt(&self, f: &mut fmt::Formatter<'_>) -> fmt::Result {
        match self {
            WriteRefusal::Map(refusal) => refusal.fmt(f),
            WriteRefusal::TooManyPaints => f.write_str("the paint count is above 65535"),
        }
    }
}

impl std::error::Error for WriteRefusal {}

/// The job file of a map, cut without cuts through waste. The library is called twice: once for the counts, once with stores of that size.
pub fn write(map: Map<'_>) -> Result<Vec<u8>, WriteRefusal> {
    let mut lent = Lent::default();
    if map.width.max(map.height) <= 16_384 {
        let corners = (map.width as usize + 1) * (map.height as usize + 1);
        lent.work = zeroed(8 * corners)?;
    }
    let (mut answer, mut length) = lent.call(map);
    if answer.number > 3 {
        lent.take(&answer)?;
        (answer, length) = lent.call(map);
    }
    match answer.number {
        0 => {
            debug_assert_eq!(lent.file.len() as u64, length);
            Ok(lent.file)
        }
        1 => Err(WriteRefusal::Map(Refusal::SideTooLong)),
        2 => Err(WriteRefusal::Map(Refusal::WrongLabelCount)),
        19 => Err(WriteRefusal::TooManyPaints),
        number => unreachable!("number {} with room for all records", number),
    }
}

/// The stores of one call.
#[derive(Default)]
struct Lent {
    work: Vec<u32>,
    nodes: Vec<u32>,
    segments: Vec<u32>,
    points: Vec<u32>,
    references: Vec<u32>,
    contours: Vec<u32>,
    faces: Vec<u32>,
    file: Vec<u8>,
}

impl Lent {
    /// Stores for the counts of an answer; the file's length follows from them.
    fn take(&mut self, a: &Answer) -> Result<(), WriteRefusal> {
        let [segments, points, references] =
            [a.segments, a.points, a.references].map(|n| n as usize);
        let [contours, faces] = [a.contours, a.faces].map(|n| n as usize);
        self.nodes = zeroed(6 * a.nodes as usize)?;
        self.segments = zeroed(8 * segments)?;
        self.points = zeroed(2 * points)?;
        self.references = zeroed(references)?;
        self.contours = zeroed(2 * contours)?;
        self.faces = zeroed(5 * faces)?;
        self.file =
            zeroed(18 + 6 * segments + 8 * points + 22 * faces + 4 * (contours + references))?;
        Ok(())
    }

    fn call(&mut self, map: Map<'_>) -> (Answer, u64) {
        let (mut answer, mut length) = (Answer::default(), 0);
        // SAFETY: each pointer and length is a vector of its own, and the labels are borrowed: no two overlap. The library's promise holds
        // for stores of any length.
        unsafe {
            mosaic_write(
                map.width,
                map.height,
                map.paints,
                map.labels.as_ptr(),
                map.labels.len(),
                self.work.as_mut_ptr(),
                self.work.len(),
                self.nodes.as_mut_ptr(),
                self.nodes.len(),
                self.segments.as_mut_ptr(),
                self.segments.len(),
                self.points.as_mut_ptr(),
                self.points.len(),
                self.references.as_mut_ptr(),
                self.references.len(),
                self.contours.as_mut_ptr(),
                self.contours.len(),
                self.faces.as_mut_ptr(),
                self.faces.len(),
                self.file.as_mut_ptr(),
                self.file.len(),
                &mut answer,
                &mut length,
            );
        }
        (answer, length)
    }
}

fn zeroed<T: Clone + Default>(n: usize) -> Result<Vec<T>, WriteRefusal> {
    let mut store = Vec::new();
    store
        .try_reserve_exact(n)
        .map_err(|_| WriteRefusal::Map(Refusal::NoMemory))?;
    store.resize(n, T::default());
    Ok(store)
}

/// The records of a job file before the first that is cut short or breaks the form.
#[derive(Clone, Debug, PartialEq, Eq)]
pub struct Salvaged {
    /// The bytes kept, unchanged.
    pub bytes: Vec<u8>,
    /// The kind of the first record dropped; 0 for a tail of under six bytes, or where nothing was dropped.
    pub dropped: u16,
}

/// What is worth having of the front of a job file; none where its first record is not a whole one of a map (the library's 14).
pub fn salvage(file: &[u8]) -> Option<Salvaged> {
    let mut bytes = vec![0; file.len()];
    let mut answer = [0; 3];
    // SAFETY: the file is borrowed, and the store is a vector of its own of the same length, which is always enough.
    unsafe {
        mosaic_salvage(
            file.as_ptr(),
            file.len(),
            bytes.as_mut_ptr(),
            bytes.len(),
            &mut answer,
        );
    }
    let [number, length, kind] = answer;
    if number != 0 {
        return None;
    }
    bytes.truncate(length as usize);
    Some(Salvaged {
        bytes,
        dropped: kind as u16,
    })
}
