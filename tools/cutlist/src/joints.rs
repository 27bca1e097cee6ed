//! Pieces that hang together by a corner only: a saw that goes through the corner takes them apart.

use crate::picture::OUTSIDE;

/// A corner that holds two parts of a piece together.
#[derive(Debug, PartialEq, Eq)]
pub struct Joint {
    pub x: u32,
    pub y: u32,
    pub region: u32,
}

/// A corner with pixels of one region across it, and the parts that they belong to.
struct Touch {
    joint: Joint,
    parts: [u32; 2],
}

/// Parts that hang together by sides, as trees of parts found to be one.
#[derive(Default)]
struct Parts(Vec<u32>);

impl Parts {
    fn new_part(&mut self) -> u32 {
        let part = self.0.len() as u32;
        self.0.push(part);
        part
    }

    fn root(&mut self, mut part: u32) -> u32 {
        while self.0[part as usize] != part {
            let above = self.0[self.0[part as usize] as usize];
            self.0[part as usize] = above;
            part = above;
        }
        part
    }

    /// Whether two were apart; they are one afterwards.
    fn join(&mut self, a: u32, b: u32) -> bool {
        let (a, b) = (self.root(a), self.root(b));
        self.0[a.max(b) as usize] = a.min(b);
        a != b
    }
}

/// The corners, row by row, so many that without them no piece would hang together by a corner only.
pub fn joints(width: usize, labels: &[u32]) -> Vec<Joint> {
    let mut parts = Parts::default();
    let mut touches = Vec::new();
    let off = vec![OUTSIDE; width];
    // The row above: its labels and the parts of its pixels.
    let mut above = (&off[..], vec![0; width]);
    for (y, row) in labels.chunks_exact(width).enumerate() {
        let mut here = vec![0; width];
        for (x, &label) in row.iter().enumerate() {
            let left = (x > 0 && row[x - 1] == label).then(|| here[x - 1]);
            let up = (above.0[x] == label).then(|| above.1[x]);
            if label != OUTSIDE {
                here[x] = match (left, up) {
                    (None, None) => parts.new_part(),
                    (None, Some(part)) | (Some(part), None) => part,
                    (Some(part), Some(other)) => {
                        if part != other {
                            parts.join(part, other);
                        }
                        part
                    }
                };
            }
            if x > 0 {
                let joint = |region| Joint {
                    x: x as u32,
                    y: y as u32,
                    region,
                };
                let [across, beside] = [above.0[x - 1], row[x - 1]];
                if across == label && label != OUTSIDE && above.0[x] != label && beside != label {
                    touches.push(Touch {
                        joint: joint(label),
                        parts: [above.1[x - 1], here[x]],
                    });
                }
                if above.0[x] == beside && beside != OUTSIDE && across != beside && label != beside
                {
                    touches.push(Touch {
                        joint: joint(beside),
                        parts: [above.1[x], here[x - 1]],
                    });
                }
            }
        }
        above = (row, here);
    }
    // Now that all sides are known: each corner that joins what was apart.
    let holds = touches
        .into_iter()
        .filter(|touch| parts.join(touch.parts[0], touch.parts[1]));
    holds.map(|touch| touch.joint).collect()
}
