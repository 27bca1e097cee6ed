//! A stub of our own: fitting, stage 3, is left aside. The names are those that mosaic.rs and compose.rs want.

use visioncortex::PointF64;

use super::graph::Segment;

pub enum FittedGeom {
    Polyline(Vec<PointF64>),
    Beziers(Vec<[PointF64; 4]>),
}

pub struct FittedSegment {
    pub geom: FittedGeom,
}

pub trait SegmentFitter {
    fn fit_open(&self, seg: &Segment) -> FittedSegment;
    fn fit_ring(&self, seg: &Segment) -> FittedSegment;
}

pub struct PolygonSegmentFitter;
pub struct SplineSegmentFitter;

/// mosaic.rs keeps stage 2 to itself and hands on whatever has this name, so this is the door to stage 2.
#[allow(non_snake_case)]
pub mod PixelSegmentFitter {
    pub use super::super::face::{assemble, Contour, Face};
}
