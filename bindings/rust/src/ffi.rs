//! The library's calls as `include/mosaic.h` declares them.

/// The eight words of an answer.
#[repr(C)]
#[derive(Clone, Copy, Debug, Default, PartialEq, Eq)]
pub struct Answer {
    pub number: u32,
    pub nodes: u32,
    pub segments: u32,
    pub points: u32,
    pub references: u32,
    pub contours: u32,
    pub faces: u32,
    pub steps: u32,
}

extern "C" {
    pub fn mosaic_version() -> u32;

    pub fn mosaic_size(
        mode: u32,
        width: u32,
        height: u32,
        paints: u32,
        labels: *const u32,
        labels_len: usize,
        work: *mut u32,
        work_len: usize,
        answer: *mut Answer,
    );

    pub fn mosaic_graph(
        mode: u32,
        width: u32,
        height: u32,
        paints: u32,
        labels: *const u32,
        labels_len: usize,
        work: *mut u32,
        work_len: usize,
        nodes: *mut u32,
        nodes_len: usize,
        segments: *mut u32,
        segments_len: usize,
        points: *mut u32,
        points_len: usize,
        answer: *mut Answer,
    );

    pub fn mosaic_whole(
        mode: u32,
        width: u32,
        height: u32,
        paints: u32,
        labels: *const u32,
        labels_len: usize,
        work: *mut u32,
        work_len: usize,
        nodes: *mut u32,
        nodes_len: usize,
        segments: *mut u32,
        segments_len: usize,
        points: *mut u32,
        points_len: usize,
        references: *mut u32,
        references_len: usize,
        contours: *mut u32,
        contours_len: usize,
        faces: *mut u32,
        faces_len: usize,
        answer: *mut Answer,
    );
}
