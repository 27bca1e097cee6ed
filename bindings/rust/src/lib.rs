//! The cut list of a label map, by a library in which every function is proved to keep its promise.
//!
//! A map is a grid of labels; its cut list says which pieces there are and along which lines the knife goes: [nodes](Node) where
//! three or four cuts meet, [segments](Segment) between them, and [faces](Face), the pieces, each with its contours.
//!
//! ```
//! use mosaic::{cut, Map};
//!
//! let map = Map { width: 2, height: 1, paints: 2, labels: &[0, 1] };
//! let list = cut(map)?;
//! for face in list.faces() {
//!     for contour in face.contours() {
//!         let corners: Vec<_> = contour.corners().map(|p| (p.x, p.y)).collect();
//!         println!("region {}: {:?}", face.region().0, corners);
//!     }
//! }
//! assert_eq!(list.faces().len(), 2);
//! # Ok::<(), mosaic::Refusal>(())
//! ```
//!
//! [`cut`] lends the library its stores; [`ffi`] has the calls themselves, for a caller with stores of its own.

mod assemble;
mod cutter;
pub mod ffi;
pub mod jobs;
pub mod layers;
mod list;
pub mod listing;
mod merge;
pub mod sheet;
pub mod tray;
mod veneer;

pub use assemble::{assemble, Graph, NotAssembled};
pub use cutter::{cut, cut_in, Cutter, Map, Mode, Refusal};
pub use list::{
    Contour, CutList, Direction, Face, Node, NodeId, Pixel, Point, RegionId, SegRef, Segment,
    SegmentId,
};
pub use merge::{merge_similar, merge_words, Merged, Unmerged, REGION_WORDS};
pub use sheet::{cut_on_sheet, cut_on_sheet_in, Move, Moves, OnSheet, Sheet};
pub use tray::{tray, Tile};
pub use veneer::veneer;
