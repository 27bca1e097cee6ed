//! Random maps, the same in every run.

use oracle::OUTSIDE;

use crate::map::Map;

/// A splitmix generator: small, and good enough to draw labels with.
pub struct Random(pub u64);

impl Random {
    pub fn next(&mut self) -> u64 {
        self.0 = self.0.wrapping_add(0x9e37_79b9_7f4a_7c15);
        let mut z = self.0;
        z = (z ^ (z >> 30)).wrapping_mul(0xbf58_476d_1ce4_e5b9);
        z = (z ^ (z >> 27)).wrapping_mul(0x94d0_49bb_1331_11eb);
        z ^ (z >> 31)
    }

    /// A number below `n`.
    pub fn below(&mut self, n: u32) -> u32 {
        (((self.next() >> 32) * u64::from(n)) >> 32) as u32
    }

    fn pick<T: Copy>(&mut self, from: &[T]) -> T {
        from[self.below(from.len() as u32) as usize]
    }

    /// A map with sides up to `side`, over a palette of its own.
    pub fn map(&mut self, side: u32) -> Map {
        let (width, height) = (self.below(side + 1), self.below(side + 1));
        let (palette, paints) = self.palette();
        // How often a pixel repeats a neighbour: from noise to large patches.
        let repeats = self.pick(&[0, 0, 30, 60, 80, 95]);
        let mut labels: Vec<u32> = Vec::new();
        for i in 0..(width as usize * height as usize) {
            let back = self.pick(&[1, width as usize, width as usize + 1]);
            let label = match i.checked_sub(back).and_then(|j| labels.get(j)) {
                Some(&near) if self.below(100) < repeats => near,
                _ => self.pick(&palette),
            };
            labels.push(label);
        }
        Map {
            width,
            height,
            paints,
            bound: OUTSIDE,
            labels,
        }
    }

    /// Labels, and a paint count that paints all, some or none of them.
    fn palette(&mut self) -> (Vec<u32>, u32) {
        let count = 1 + self.pick(&[1, 2, 3, 5, 11, 200]);
        let few: Vec<u32> = (0..count).collect();
        match self.below(10) {
            0 => (few, self.pick(&[0, 1, u32::MAX])),
            1 | 2 => (few, count),
            3 => (few, count / 2),
            4 | 5 => (
                [few, vec![OUTSIDE]].concat(),
                self.pick(&[1, count / 2, count]),
            ),
            // The largest labels, painted or not.
            6 => (
                (0..=count).map(|i| OUTSIDE - i).collect(),
                self.pick(&[0, 1, OUTSIDE - count / 2, u32::MAX - 1, u32::MAX]),
            ),
            7 => {
                let any = (0..count).map(|_| self.next() as u32).collect();
                (any, self.pick(&[0, 1, 1 << 31, u32::MAX]))
            }
            // Nothing but OUTSIDE, or nothing painted.
            8 if count == 2 => (vec![OUTSIDE], self.pick(&[0, 1, u32::MAX])),
            8 => (few.iter().map(|l| l + 7).chain([OUTSIDE]).collect(), 7),
            _ => (
                vec![0, 1, OUTSIDE - 1, OUTSIDE],
                self.pick(&[1, 2, u32::MAX]),
            ),
        }
    }
}
