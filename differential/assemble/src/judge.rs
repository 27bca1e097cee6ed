//! #111 word by word: does a graph in words describe a map? Written from the request and docs/RULES.md, not from the definitions.

use crate::library::Graph;
use std::collections::{HashMap, HashSet};

const NONE: u32 = u32::MAX;
type Corner = (i64, i64);

pub const STEP: [Corner; 4] = [(0, -1), (1, 0), (0, 1), (-1, 0)];

pub struct Judge<'a> {
    pub width: i64,
    pub height: i64,
    pub labels: &'a [u32],
}

impl Judge<'_> {
    fn pixel(&self, x: i64, y: i64) -> u32 {
        if (0..self.width).contains(&x) && (0..self.height).contains(&y) {
            self.labels[(y * self.width + x) as usize]
        } else {
            NONE
        }
    }

    fn around(&self, (x, y): Corner) -> [u32; 4] {
        [
            self.pixel(x - 1, y - 1),
            self.pixel(x, y - 1),
            self.pixel(x - 1, y),
            self.pixel(x, y),
        ]
    }

    fn present(&self, c: Corner) -> [bool; 4] {
        let [nw, ne, sw, se] = self.around(c);
        [nw != ne, ne != se, sw != se, nw != sw]
    }

    pub fn sides(&self, c: Corner, d: usize) -> (u32, u32) {
        let [nw, ne, sw, se] = self.around(c);
        [(nw, ne), (ne, se), (se, sw), (sw, nw)][d]
    }

    fn cracks(&self) -> HashSet<(Corner, Corner)> {
        let mut all = HashSet::new();
        for y in -1..self.height {
            for x in -1..self.width {
                if self.pixel(x, y) != self.pixel(x + 1, y) {
                    all.insert(edge((x + 1, y), (x + 1, y + 1)));
                }
                if self.pixel(x, y) != self.pixel(x, y + 1) {
                    all.insert(edge((x, y + 1), (x + 1, y + 1)));
                }
            }
        }
        all
    }

    fn corners(&self) -> HashSet<Corner> {
        let all = (0..=self.height).flat_map(|y| (0..=self.width).map(move |x| (x, y)));
        all.filter(|&c| self.present(c).iter().filter(|p| **p).count() >= 3)
            .collect()
    }

    pub fn describes(&self, g: &Graph) -> bool {
        let (n, m) = (g.node_count as usize, g.segment_count as usize);
        // records and parts lie inside the stores
        if n > g.nodes.len() / 6 || m > g.segments.len() / 8 {
            return false;
        }
        let (cracks, corners) = (self.cracks(), self.corners());
        // nodes are the node corners, each once
        let at: Vec<Corner> = (0..n)
            .map(|i| (g.nodes[6 * i].into(), g.nodes[6 * i + 1].into()))
            .collect();
        let set: HashSet<Corner> = at.iter().copied().collect();
        if set.len() != at.len() || set != corners {
            return false;
        }
        let mut walked = HashSet::new();
        let mut leaving = HashMap::new();
        for i in 0..m {
            let [first, count, start, end, left, right, leaves, arrives] =
                g.segments[8 * i..8 * i + 8]
            else {
                return false;
            };
            if u64::from(first) + u64::from(count) > (g.points.len() / 2) as u64 || count < 2 {
                return false;
            }
            let part = first as usize..first as usize + count as usize;
            let p: Vec<Corner> = part
                .map(|j| (g.points[2 * j].into(), g.points[2 * j + 1].into()))
                .collect();
            let mut heads = Vec::new();
            for w in p.windows(2) {
                // each step is a crack, and each crack one step
                let e = edge(w[0], w[1]);
                if !cracks.contains(&e) || !walked.insert(e) {
                    return false;
                }
                let way = (w[1].0 - w[0].0, w[1].1 - w[0].1);
                heads.push(
                    STEP.iter()
                        .position(|s| *s == way)
                        .expect("a crack is a unit step"),
                );
            }
            // none between
            if p[1..p.len() - 1].iter().any(|c| corners.contains(c)) {
                return false;
            }
            let (a, z) = (p[0], p[p.len() - 1]);
            let (out, back) = (heads[0], heads[heads.len() - 1]);
            if start == NONE && end == NONE {
                // rings close and meet no node; last direction 0
                if a != z || corners.contains(&a) || arrives != 0 {
                    return false;
                }
            } else {
                let (start, end) = (start as usize, end as usize);
                if start >= n
                    || end >= n
                    || at[start] != a
                    || at[end] != z
                    || arrives as usize != back
                {
                    return false;
                }
                leaving.insert((a, out), 2 * i as u32);
                leaving.insert((z, (back + 2) % 4), 2 * i as u32 + 1);
            }
            if (left, right) != self.sides(a, out) || leaves as usize != out {
                return false;
            }
        }
        if walked != cracks {
            return false;
        }
        (0..n).all(|i| {
            (0..4).all(|d| {
                g.nodes[6 * i + 2 + d] == leaving.get(&(at[i], d)).copied().unwrap_or(NONE)
            })
        })
    }
}

fn edge(a: Corner, b: Corner) -> (Corner, Corner) {
    (a.min(b), a.max(b))
}
