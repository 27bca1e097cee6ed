//! The unchanged Rust of vtracer's mosaic mode, stages 1 and 2, and its answers as the port's words.
//!
//! - [`cut_list`] goes from a map to the words of the six stores and the seven counts. The last two words of a face, its first pixel, the
//!   Rust does not tell: they are from [`islands`], a search of their own.
//! - with the feature `colours`, [`coloured_map`] is a map for the Rust's `merge_similar` (`differential/merge`).
//! - [`label_map`], [`extract`] and [`assemble`] are its three steps, for who wants to time them; [`cut_list_of`] is the last.
//! - [`segmentation`] makes layers of the port's words, [`from_segmentation`] flattens them.
//!
//! The Rust asks for a map whose label count is width × height and checks nothing; so do these.

// The tree that build.rs laid out; the Rust's files name its parts as `crate::..`.
include!(concat!(env!("OUT_DIR"), "/root.rs"));
use vtracer::{ir, mosaic, simplify};

pub mod islands;

pub use mosaic::PixelSegmentFitter::{assemble, Contour, Face};
pub use mosaic::{BoundaryGraph, LabelMap, Node, SegRef, Segment, OUTSIDE};

pub use ir::Segmentation;

use ir::{Layer, Paint, RegionMask};
use visioncortex::{BinaryImage, Color, PointI32};

/// "None" in a record.
pub const NONE: u32 = u32::MAX;

/// The words of the six stores, as the library writes them, and the seven counts in the answer's order.
#[derive(Clone, Debug, Default, PartialEq, Eq)]
pub struct CutList {
    pub nodes: Vec<u32>,
    pub segments: Vec<u32>,
    pub points: Vec<u32>,
    pub references: Vec<u32>,
    pub contours: Vec<u32>,
    pub faces: Vec<u32>,
    pub counts: [u32; 7],
}

/// Words of a record in each of the six stores: nodes, segments, points, references, contours, faces.
pub const RECORD: [usize; 6] = [6, 8, 2, 1, 2, 5];

impl CutList {
    /// The six stores in the order of the library's parameters.
    pub fn stores(&self) -> [&[u32]; 6] {
        [
            &self.nodes,
            &self.segments,
            &self.points,
            &self.references,
            &self.contours,
            &self.faces,
        ]
    }
}

/// The Rust's map. Its paints take no room, however many they are.
pub fn label_map(width: u32, height: u32, paints: u32, labels: &[u32]) -> LabelMap {
    LabelMap {
        width,
        height,
        labels: labels.to_vec(),
        paints: vec![Paint::Solid(Color::new(0, 0, 0)); paints as usize],
    }
}

/// The Rust's map with its colours, three bytes for each paint; `merge_similar` is a method of it.
#[cfg(feature = "colours")]
pub fn coloured_map(width: u32, height: u32, labels: &[u32], colours: &[u8]) -> LabelMap {
    let solid = |c: &[u8]| Paint::Solid(Color::new(c[0], c[1], c[2]));
    LabelMap {
        width,
        height,
        labels: labels.to_vec(),
        paints: colours.chunks_exact(3).map(solid).collect(),
    }
}

/// The colours of a map's paints.
#[cfg(feature = "colours")]
pub fn colours_of(map: &LabelMap) -> Vec<u8> {
    let bytes = |paint: &Paint| [paint.color().r, paint.color().g, paint.color().b];
    map.paints.iter().flat_map(bytes).collect()
}

/// Stage 1, as graph.rs has it. Stage 2 is [`assemble`], as face.rs has it.
pub fn extract(map: &LabelMap) -> BoundaryGraph {
    BoundaryGraph::extract(map)
}

/// What the Rust answers to a map, in the port's words.
pub fn cut_list(width: u32, height: u32, paints: u32, labels: &[u32]) -> CutList {
    let map = label_map(width, height, paints, labels);
    let graph = extract(&map);
    let faces = assemble(&graph, &map);
    cut_list_of(&map, &graph, &faces)
}

/// The records of a map's graph and faces.
pub fn cut_list_of(map: &LabelMap, graph: &BoundaryGraph, faces: &[Face]) -> CutList {
    let mut out = CutList::default();
    for node in &graph.nodes {
        put_node(&mut out, node);
    }
    for segment in &graph.segments {
        put_segment(&mut out, segment);
    }
    let islands = islands::first_pixels(map);
    assert_eq!(islands.len(), faces.len(), "a face for each island");
    for (face, [label, x, y]) in faces.iter().zip(islands) {
        assert_eq!(face.region, label, "the face of its island");
        put_face(&mut out, face, [x, y]);
    }
    out.counts = counts(&out);
    out
}

fn put_node(out: &mut CutList, node: &Node) {
    out.nodes.push(node.corner.x as u32);
    out.nodes.push(node.corner.y as u32);
    out.nodes
        .extend(node.out.iter().map(|entry| entry.map_or(NONE, code)));
}

fn put_segment(out: &mut CutList, segment: &Segment) {
    let first = out.points.len() / RECORD[2];
    out.segments.extend([
        first as u32,
        segment.points.len() as u32,
        segment.start.unwrap_or(NONE),
        segment.end.unwrap_or(NONE),
        segment.left,
        segment.right,
        u32::from(segment.first_dir),
        u32::from(segment.last_dir),
    ]);
    for point in &segment.points {
        out.points.extend([point.x as u32, point.y as u32]);
    }
}

fn put_face(out: &mut CutList, face: &Face, [x, y]: [u32; 2]) {
    let first = out.contours.len() / RECORD[4];
    out.faces
        .extend([face.region, first as u32, face.contours.len() as u32, x, y]);
    for Contour(references) in &face.contours {
        let first = out.references.len();
        out.contours.extend([first as u32, references.len() as u32]);
        out.references.extend(references.iter().copied().map(code));
    }
}

/// 2 × segment, plus 1 when reversed.
fn code(reference: SegRef) -> u32 {
    2 * reference.seg + u32::from(!reference.forward)
}

fn counts(out: &CutList) -> [u32; 7] {
    let mut counts = [0; 7];
    for (count, (store, size)) in counts.iter_mut().zip(out.stores().iter().zip(RECORD)) {
        *count = (store.len() / size) as u32;
    }
    // A segment has one step fewer than points.
    counts[6] = counts[2] - counts[1];
    counts
}

/// The Rust's layers. Of every four words x and y are signed; the masks stand one after the other, a byte for a pixel.
pub fn segmentation(width: u32, height: u32, layers: &[u32], mut masks: &[u8]) -> Segmentation {
    let mut seg = Segmentation::new(width, height);
    for layer in layers.chunks_exact(4) {
        let (w, h) = (layer[2] as usize, layer[3] as usize);
        let (mask, rest) = masks.split_at(w * h);
        masks = rest;
        let offset = PointI32 {
            x: layer[0] as i32,
            y: layer[1] as i32,
        };
        seg.layers.push(Layer {
            paint: Paint::Solid(Color::new(0, 0, 0)),
            mask: RegionMask::new(image(w, h, mask), offset),
        });
    }
    seg
}

fn image(width: usize, height: usize, mask: &[u8]) -> BinaryImage {
    let mut image = BinaryImage::new_w_h(width, height);
    for (i, &byte) in mask.iter().enumerate() {
        image.set_pixel(i % width, i / width, byte == 1);
    }
    image
}

/// The flat map of layers, as mosaic.rs has it.
pub fn from_segmentation(seg: &Segmentation) -> LabelMap {
    LabelMap::from_segmentation(seg)
}

#[cfg(test)]
mod tests {
    use super::*;

    /// The 2×1 map of two labels.
    #[test]
    fn the_printed_map() {
        let found = cut_list(2, 1, 2, &[0, 1]);
        assert_eq!(found.counts, [2, 3, 10, 4, 2, 2, 7]);
        assert_eq!(found.nodes[..6], [1, 0, NONE, 0, 2, 4]);
        assert_eq!(found.references, [3, 4, 1, 2]);
        assert_eq!(found.faces, [0, 0, 1, 0, 0, 1, 1, 1, 1, 0]);
    }

    #[test]
    fn all_paints_take_no_room() {
        let found = cut_list(1, 1, u32::MAX, &[u32::MAX - 1]);
        assert_eq!(found.counts, [0, 1, 5, 1, 1, 1, 4]);
    }
}
