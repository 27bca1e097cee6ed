//! Faces over a graph that another writer made.

use std::fmt;

use crate::cutter::{Map, Mode};
use crate::ffi::Answer;
use crate::list::{CutList, Stores};

extern "C" {
    fn mosaic_assemble(
        mode: u32,
        width: u32,
        height: u32,
        paints: u32,
        labels: *const u32,
        labels_len: usize,
        work: *mut u32,
        work_len: usize,
        nodes: *const u32,
        nodes_len: usize,
        node_count: u32,
        segments: *const u32,
        segments_len: usize,
        segment_count: u32,
        points: *const u32,
        points_len: usize,
        references: *mut u32,
        references_len: usize,
        contours: *mut u32,
        contours_len: usize,
        faces: *mut u32,
        faces_len: usize,
        answer: *mut Answer,
    );
}

/// A graph in the library's records, as `include/mosaic.h` has them: nodes and segments in any order, segments and rings in either
/// direction, rings from any of their corners.
#[derive(Clone, Copy, Debug)]
pub struct Graph<'a> {
    /// x, y, then the reference that leaves to the north, east, south and west, or `u32::MAX`.
    pub nodes: &'a [[u32; 6]],
    /// First point, point count, start node, end node, left, right, first direction, last direction.
    pub segments: &'a [[u32; 8]],
    /// x, y.
    pub points: &'a [[u32; 2]],
}

/// Why there are no faces over a graph.
#[derive(Clone, Copy, Debug, PartialEq, Eq)]
pub enum NotAssembled {
    /// A side is above 16,384.
    SideTooLong,
    /// There are not width × height labels.
    WrongLabelCount,
    /// The graph does not describe the map.
    StrangeGraph,
}

impl NotAssembled {
    /// The library's number for it.
    pub fn number(self) -> u32 {
        match self {
            NotAssembled::SideTooLong => 1,
            NotAssembled::WrongLabelCount => 2,
            NotAssembled::StrangeGraph => 15,
        }
    }
}

impl fmt::Display for NotAssembled {
    fn fmt(&self, f: &mut fmt::Formatter<'_>) -> fmt::Result {
        f.write_str(match self {
            NotAssembled::SideTooLong => "a side of the map is above 16384",
            NotAssembled::WrongLabelCount => "the label count is not width times height",
            NotAssembled::StrangeGraph => "the graph does not describe the map",
        })
    }
}

impl std::error::Error for NotAssembled {}

/// The cut list of a map over a graph that describes it, with the graph's own nodes, segments and points.
pub fn assemble(mode: Mode, map: Map<'_>, graph: Graph<'_>) -> Result<CutList, NotAssembled> {
    let side = |length: u32| length.min(16_384) as usize + 1;
    let mut work = vec![0u32; 8 * side(map.width) * side(map.height)];
    // A segment has two sides; no contour and no face is without one.
    let sides = 2 * graph.segments.len();
    let mut stores = Stores {
        nodes: graph.nodes.to_vec(),
        segments: graph.segments.to_vec(),
        points: graph.points.to_vec(),
        references: vec![Default::default(); sides],
        contours: vec![Default::default(); sides],
        faces: vec![Default::default(); sides],
    };
    let mut answer = Answer::default();
    let (references, references_len) = words(&mut stores.references);
    let (contours, contours_len) = words(&mut stores.contours);
    let (faces, faces_len) = words(&mut stores.faces);
    // SAFETY: each pointer and length is a vector of its own or a borrowed slice of words that is only read, and so is the answer. The
    // library's promise holds for stores of any length, whatever words they hold.
    unsafe {
        mosaic_assemble(
            mode.word(),
            map.width,
            map.height,
            map.paints,
            map.labels.as_ptr(),
            map.labels.len(),
            work.as_mut_ptr(),
            work.len(),
            graph.nodes.as_ptr().cast(),
            6 * graph.nodes.len(),
            count(graph.nodes.len()),
            graph.segments.as_ptr().cast(),
            8 * graph.segments.len(),
            count(graph.segments.len()),
            graph.points.as_ptr().cast(),
            2 * graph.points.len(),
            references,
            references_len,
            contours,
            contours_len,
            faces,
            faces_len,
            &mut answer,
        );
    }
    match answer.number {
        0 => {
            stores.references.truncate(answer.references as usize);
            stores.contours.truncate(answer.contours as usize);
            stores.faces.truncate(answer.faces as usize);
            Ok(CutList::new(stores, answer))
        }
        1 => Err(NotAssembled::SideTooLong),
        2 => Err(NotAssembled::WrongLabelCount),
        15 => Err(NotAssembled::StrangeGraph),
        number => unreachable!("number {} with room for all records", number),
    }
}

/// A store of records as the library takes it: a pointer and a length in words.
fn words<const N: usize>(store: &mut [[u32; N]]) -> (*mut u32, usize) {
    (store.as_mut_ptr().cast(), store.len() * N)
}

/// No map has as many records as the largest number, so a graph with more is refused all the same.
fn count(records: usize) -> u32 {
    records.try_into().unwrap_or(u32::MAX)
}
