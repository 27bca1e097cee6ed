//! The library's calls, with stores that show every word that they change.

use oracle::RECORD;

/// A map as the library takes it: `mode` 0 reads each label as it is, any other every unpainted one as OUTSIDE.
#[derive(Clone, Debug)]
pub struct Map {
    pub mode: u32,
    pub width: u32,
    pub height: u32,
    pub paints: u32,
    pub labels: Vec<u32>,
}

impl Map {
    /// The labels as the mode reads them.
    pub fn read(&self) -> Vec<u32> {
        let seen = |&l: &u32| {
            if self.mode != 0 && l >= self.paints {
                u32::MAX
            } else {
                l
            }
        };
        self.labels.iter().map(seen).collect()
    }

    pub fn work_words(&self) -> usize {
        8 * (self.width as usize + 1) * (self.height as usize + 1)
    }
}

/// A graph in words, with the counts that its writer gives.
#[derive(Clone, Debug, Default, PartialEq, Eq)]
pub struct Graph {
    pub nodes: Vec<u32>,
    pub node_count: u32,
    pub segments: Vec<u32>,
    pub segment_count: u32,
    pub points: Vec<u32>,
}

extern "C" {
    fn mosaic_size(
        mode: u32,
        width: u32,
        height: u32,
        paints: u32,
        labels: *const u32,
        labels_len: usize,
        work: *mut u32,
        work_len: usize,
        answer: *mut [u32; 8],
    );
    fn mosaic_graph(
        mode: u32,
        width: u32,
        height: u32,
        paints: u32,
        labels: *const u32,
        labels_len: usize,
        work: *mut u32,
        work_len: usize,
        nodes: *mut u32,
        nodes_len: usize,
        segments: *mut u32,
        segments_len: usize,
        points: *mut u32,
        points_len: usize,
        answer: *mut [u32; 8],
    );
    fn mosaic_whole(
        mode: u32,
        width: u32,
        height: u32,
        paints: u32,
        labels: *const u32,
        labels_len: usize,
        work: *mut u32,
        work_len: usize,
        nodes: *mut u32,
        nodes_len: usize,
        segments: *mut u32,
        segments_len: usize,
        points: *mut u32,
        points_len: usize,
        references: *mut u32,
        references_len: usize,
        contours: *mut u32,
        contours_len: usize,
        faces: *mut u32,
        faces_len: usize,
        answer: *mut [u32; 8],
    );
    fn mosaic_assemble(
        mode: u32,
        width: u32,
        height: u32,
        paints: u32,
        labels: *const u32,
        labels_len: usize,
        work: *mut u32,
        work_len: usize,
        nodes: *const u32,
        nodes_len: usize,
        node_count: u32,
        segments: *const u32,
        segments_len: usize,
        segment_count: u32,
        points: *const u32,
        points_len: usize,
        references: *mut u32,
        references_len: usize,
        contours: *mut u32,
        contours_len: usize,
        faces: *mut u32,
        faces_len: usize,
        answer: *mut [u32; 8],
    );
}


/// Words of a record: nodes, segments, points, references, contours, faces.
pub const WORDS: [usize; 6] = RECORD;

/// What a call is lent, and what it leaves.
#[derive(Clone, Debug, PartialEq, Eq)]
pub struct Stores {
    pub work: Vec<u32>,
    pub nodes: Vec<u32>,
    pub segments: Vec<u32>,
    pub points: Vec<u32>,
    pub references: Vec<u32>,
    pub contours: Vec<u32>,
    pub faces: Vec<u32>,
}

impl Stores {
    /// With room for these numbers of records, the words all of a junk value.
    pub fn new(map: &Map, records: [u32; 6], junk: u32) -> Stores {
        let store = |i: usize| vec![junk; records[i] as usize * WORDS[i]];
        Stores {
            work: vec![junk; map.work_words()],
            nodes: store(0),
            segments: store(1),
            points: store(2),
            references: store(3),
            contours: store(4),
            faces: store(5),
        }
    }
}

pub fn size(map: &Map, s: &mut Stores) -> [u32; 8] {
    let mut answer = [0; 8];
    // SAFETY: every store is a vector of its own, and the labels are borrowed; so below.
    unsafe {
        mosaic_size(
            map.mode,
            map.width,
            map.height,
            map.paints,
            map.labels.as_ptr(),
            map.labels.len(),
            s.work.as_mut_ptr(),
            s.work.len(),
            &mut answer,
        );
    }
    answer
}

pub fn graph(map: &Map, s: &mut Stores) -> [u32; 8] {
    let mut answer = [0; 8];
    unsafe {
        mosaic_graph(
            map.mode,
            map.width,
            map.height,
            map.paints,
            map.labels.as_ptr(),
            map.labels.len(),
            s.work.as_mut_ptr(),
            s.work.len(),
            s.nodes.as_mut_ptr(),
            s.nodes.len(),
            s.segments.as_mut_ptr(),
            s.segments.len(),
            s.points.as_mut_ptr(),
            s.points.len(),
            &mut answer,
        );
    }
    answer
}

pub fn whole(map: &Map, s: &mut Stores) -> [u32; 8] {
    let mut answer = [0; 8];
    unsafe {
        mosaic_whole(
            map.mode,
            map.width,
            map.height,
            map.paints,
            map.labels.as_ptr(),
            map.labels.len(),
            s.work.as_mut_ptr(),
            s.work.len(),
            s.nodes.as_mut_ptr(),
            s.nodes.len(),
            s.segments.as_mut_ptr(),
            s.segments.len(),
            s.points.as_mut_ptr(),
            s.points.len(),
            s.references.as_mut_ptr(),
            s.references.len(),
            s.contours.as_mut_ptr(),
            s.contours.len(),
            s.faces.as_mut_ptr(),
            s.faces.len(),
            &mut answer,
        );
    }
    answer
}

pub fn assemble(map: &Map, g: &Graph, s: &mut Stores) -> [u32; 8] {
    let mut answer = [0; 8];
    unsafe {
        mosaic_assemble(
            map.mode,
            map.width,
            map.height,
            map.paints,
            map.labels.as_ptr(),
            map.labels.len(),
            s.work.as_mut_ptr(),
            s.work.len(),
            g.nodes.as_ptr(),
            g.nodes.len(),
            g.node_count,
            g.segments.as_ptr(),
            g.segments.len(),
            g.segment_count,
            g.points.as_ptr(),
            g.points.len(),
            s.references.as_mut_ptr(),
            s.references.len(),
            s.contours.as_mut_ptr(),
            s.contours.len(),
            s.faces.as_mut_ptr(),
            s.faces.len(),
            &mut answer,
        );
    }
    answer
}
