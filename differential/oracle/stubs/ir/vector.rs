//! A stub of our own: the output document of stage 4, which is left aside.

use visioncortex::PointF64;

use super::Paint;

pub enum PathCmd {
    MoveTo(PointF64),
    LineTo(PointF64),
    CubicTo(PointF64, PointF64, PointF64),
    Close,
}

#[derive(Default)]
pub struct SubPath {
    pub commands: Vec<PathCmd>,
}

impl SubPath {
    pub fn new() -> SubPath {
        SubPath::default()
    }

    pub fn is_empty(&self) -> bool {
        self.commands.is_empty()
    }
}

#[derive(Default)]
pub struct MultiPath {
    pub subpaths: Vec<SubPath>,
}

impl MultiPath {
    pub fn new() -> MultiPath {
        MultiPath::default()
    }

    pub fn is_empty(&self) -> bool {
        self.subpaths.is_empty()
    }
}

pub struct Shape {
    pub paint: Paint,
    pub path: MultiPath,
}

pub struct VectorDoc {
    pub width: u32,
    pub height: u32,
    pub shapes: Vec<Shape>,
}

impl VectorDoc {
    pub fn new(width: u32, height: u32) -> VectorDoc {
        VectorDoc {
            width,
            height,
            shapes: Vec::new(),
        }
    }
}
