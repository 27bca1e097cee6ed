//! A map, and its text as `textmap` reads it.

use std::fmt;

use oracle::OUTSIDE;

#[derive(Clone, Debug, PartialEq, Eq)]
pub struct Map {
    pub width: u32,
    pub height: u32,
    pub paints: u32,
    /// Labels from here on are read as OUTSIDE: OUTSIDE itself, or the paint count where no cut goes through waste.
    pub bound: u32,
    pub labels: Vec<u32>,
}

impl Map {
    /// A map whose label at (x, y) is `label(x, y)`.
    pub fn new(
        width: u32,
        height: u32,
        paints: u32,
        mut label: impl FnMut(u32, u32) -> u32,
    ) -> Map {
        let mut labels = Vec::with_capacity(width as usize * height as usize);
        for y in 0..height {
            for x in 0..width {
                labels.push(label(x, y));
            }
        }
        Map {
            width,
            height,
            paints,
            bound: OUTSIDE,
            labels,
        }
    }

    /// The same map without waste, where it has any.
    pub fn without_waste(&self) -> Option<Map> {
        let waste = |&label: &u32| label >= self.paints && label != OUTSIDE;
        self.labels.iter().any(waste).then(|| Map {
            bound: self.paints,
            ..self.clone()
        })
    }

    /// Its mode, as the library takes it.
    pub fn mode(&self) -> u32 {
        u32::from(self.bound != OUTSIDE)
    }

    /// What the unchanged Rust says of it: where there is to be no waste, of the map with those labels replaced.
    pub fn cut_list(&self) -> oracle::CutList {
        let read = |&label: &u32| if label < self.bound { label } else { OUTSIDE };
        let labels: Vec<u32> = self.labels.iter().map(read).collect();
        oracle::cut_list(self.width, self.height, self.paints, &labels)
    }

    /// What "the smallest map" goes by: the pixels, then the sides.
    pub fn size(&self) -> (usize, u64) {
        let sides = u64::from(self.width) + u64::from(self.height);
        (self.labels.len(), sides)
    }

    pub fn without_row(&self, row: u32) -> Map {
        let map = Map::new(self.width, self.height - 1, self.paints, |x, y| {
            self.at(x, if y < row { y } else { y + 1 })
        });
        Map {
            bound: self.bound,
            ..map
        }
    }

    pub fn without_column(&self, column: u32) -> Map {
        let map = Map::new(self.width - 1, self.height, self.paints, |x, y| {
            self.at(if x < column { x } else { x + 1 }, y)
        });
        Map {
            bound: self.bound,
            ..map
        }
    }

    fn at(&self, x: u32, y: u32) -> u32 {
        self.labels[y as usize * self.width as usize + x as usize]
    }
}

impl fmt::Display for Map {
    fn fmt(&self, f: &mut fmt::Formatter) -> fmt::Result {
        writeln!(f, "{} {} {}", self.width, self.height, self.paints)?;
        for y in 0..self.height {
            let entries: Vec<String> = (0..self.width).map(|x| entry(self.at(x, y))).collect();
            writeln!(f, "{}", entries.join(" "))?;
        }
        Ok(())
    }
}

fn entry(label: u32) -> String {
    if label == OUTSIDE {
        ".".to_owned()
    } else {
        label.to_string()
    }
}
