//! A stub of our own for the crate that the Rust leans on: points, binary images and colours, no more than the files name.

#[derive(Clone, Copy, Debug, Default, PartialEq, Eq)]
pub struct PointI32 {
    pub x: i32,
    pub y: i32,
}

#[derive(Clone, Copy, Debug, Default, PartialEq)]
pub struct PointF64 {
    pub x: f64,
    pub y: f64,
}

/// One channel of a colour. It takes no room, so that 4294967295 paints take none either; stages 1 and 2 look at the paint count alone.
#[cfg(not(feature = "colours"))]
#[derive(Clone, Copy, Debug, PartialEq, Eq)]
pub enum Channel {
    Zero,
}

#[cfg(not(feature = "colours"))]
fn channel(_value: u8) -> Channel {
    Channel::Zero
}

/// One channel of a colour: merging looks at it.
#[cfg(feature = "colours")]
pub type Channel = u8;

#[cfg(feature = "colours")]
fn channel(value: u8) -> Channel {
    value
}

#[derive(Clone, Copy, Debug, PartialEq, Eq)]
pub struct Color {
    pub r: Channel,
    pub g: Channel,
    pub b: Channel,
}

impl Color {
    pub fn new(r: u8, g: u8, b: u8) -> Color {
        Color {
            r: channel(r),
            g: channel(g),
            b: channel(b),
        }
    }
}

#[derive(Clone, Debug)]
pub struct BinaryImage {
    pub width: usize,
    pub height: usize,
    pixels: Vec<bool>,
}

impl BinaryImage {
    pub fn new_w_h(width: usize, height: usize) -> BinaryImage {
        BinaryImage {
            width,
            height,
            pixels: vec![false; width * height],
        }
    }

    pub fn get_pixel(&self, x: usize, y: usize) -> bool {
        self.pixels[y * self.width + x]
    }

    pub fn set_pixel(&mut self, x: usize, y: usize, on: bool) {
        self.pixels[y * self.width + x] = on;
    }
}
