//! A stub of our own: the curve passes after stage 2 are left aside.

use crate::mosaic::FittedGeom;

pub trait CurvePass {
    fn open(&self, geom: FittedGeom) -> FittedGeom;
    fn ring(&self, geom: FittedGeom) -> FittedGeom;
}
