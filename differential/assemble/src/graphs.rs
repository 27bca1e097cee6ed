//! Graphs of other writers: a map's graph renumbered, reversed, with other ring starts and other parts; and such graphs damaged.

use crate::judge::{Judge, STEP};
use crate::library::{Graph, Map};
use oracle::{BoundaryGraph, Node, SegRef, Segment, NONE};
use visioncortex::PointI32;

/// A small generator of our own: the same graphs in every run.
pub struct Dice(pub u64);

impl Dice {
    pub fn roll(&mut self, sides: usize) -> usize {
        self.0 = self.0.wrapping_add(0x9e37_79b9_7f4a_7c15);
        let mut z = self.0;
        z = (z ^ (z >> 30)).wrapping_mul(0xbf58_476d_1ce4_e5b9);
        z = (z ^ (z >> 27)).wrapping_mul(0x94d0_49bb_1331_11eb);
        ((z ^ (z >> 31)) % sides as u64) as usize
    }

    pub fn pick<T: Copy>(&mut self, from: &[T]) -> T {
        from[self.roll(from.len())]
    }

    pub fn shuffled(&mut self, n: usize) -> Vec<usize> {
        let mut all: Vec<usize> = (0..n).collect();
        for i in (1..n).rev() {
            all.swap(i, self.roll(i + 1));
        }
        all
    }
}

pub fn map(dice: &mut Dice, longest: usize) -> Map {
    let (width, height) = (1 + dice.roll(longest), 1 + dice.roll(longest));
    let palettes: [&[u32]; 6] = [
        &[0, 1],
        &[0, NONE],
        &[0, 1, NONE],
        &[0, 1, 2],
        &[0, 5, 1, 6],
        &[0, 0, 0, 1],
    ];
    let palette = dice.pick(&palettes);
    Map {
        mode: dice.roll(2) as u32,
        width: width as u32,
        height: height as u32,
        paints: 1 + dice.roll(3) as u32,
        labels: (0..width * height).map(|_| dice.pick(palette)).collect(),
    }
}

/// The Rust's graph, renumbered, reversed and with its rings turned.
pub fn other_writer(dice: &mut Dice, judge: &Judge<'_>, traced: &BoundaryGraph) -> BoundaryGraph {
    let order = dice.shuffled(traced.nodes.len());
    let mut new = vec![0; order.len()];
    for (k, &o) in order.iter().enumerate() {
        new[o] = k as u32;
    }
    let mut nodes: Vec<Node> = order
        .iter()
        .map(|&o| Node {
            corner: traced.nodes[o].corner,
            out: [None; 4],
        })
        .collect();
    let mut segments = Vec::new();
    for (i, o) in dice.shuffled(traced.segments.len()).into_iter().enumerate() {
        let old = &traced.segments[o];
        let mut points = old.points.clone();
        let (mut start, mut end) = (
            old.start.map(|k| new[k as usize]),
            old.end.map(|k| new[k as usize]),
        );
        if start.is_none() && dice.roll(4) != 0 {
            points.pop();
            let turn = dice.roll(points.len());
            points.rotate_left(turn);
            points.push(points[0]);
        }
        if dice.roll(2) == 0 {
            points.reverse();
            std::mem::swap(&mut start, &mut end);
        }
        let first = way(points[0], points[1]);
        let last = way(points[points.len() - 2], points[points.len() - 1]);
        let (left, right) = judge.sides((points[0].x.into(), points[0].y.into()), first);
        if let (Some(a), Some(z)) = (start, end) {
            nodes[a as usize].out[first] = Some(SegRef {
                seg: i as u32,
                forward: true,
            });
            nodes[z as usize].out[(last + 2) % 4] = Some(SegRef {
                seg: i as u32,
                forward: false,
            });
        }
        let last = if start.is_some() { last } else { 0 };
        segments.push(Segment {
            points,
            start,
            end,
            left,
            right,
            first_dir: first as u8,
            last_dir: last as u8,
        });
    }
    BoundaryGraph { nodes, segments }
}

fn way(a: PointI32, b: PointI32) -> usize {
    let d = (i64::from(b.x - a.x), i64::from(b.y - a.y));
    STEP.iter().position(|s| *s == d).expect("a unit step")
}

/// Its words, the parts in any order, with gaps, or sharing a point with the part before; and words past the records.
pub fn words(dice: &mut Dice, graph: &BoundaryGraph) -> Graph {
    let mut points: Vec<(u32, u32)> = Vec::new();
    let mut place = vec![0; graph.segments.len()];
    for i in dice.shuffled(graph.segments.len()) {
        let part: Vec<(u32, u32)> = graph.segments[i]
            .points
            .iter()
            .map(|p| (p.x as u32, p.y as u32))
            .collect();
        if points.last() == Some(&part[0]) && dice.roll(5) < 3 {
            place[i] = points.len() - 1;
            points.extend(&part[1..]);
        } else {
            for _ in 0..dice.pick(&[0, 0, 0, 1, 2]) {
                points.push((dice.roll(5) as u32, dice.roll(5) as u32));
            }
            place[i] = points.len();
            points.extend(&part);
        }
    }
    let mut g = Graph {
        node_count: graph.nodes.len() as u32,
        segment_count: graph.segments.len() as u32,
        points: points.iter().flat_map(|p| [p.0, p.1]).collect(),
        ..Graph::default()
    };
    for node in &graph.nodes {
        g.nodes.extend([node.corner.x as u32, node.corner.y as u32]);
        g.nodes.extend(
            node.out
                .map(|out| out.map_or(NONE, |r| 2 * r.seg + u32::from(!r.forward))),
        );
    }
    for (i, s) in graph.segments.iter().enumerate() {
        g.segments.extend([
            place[i] as u32,
            s.points.len() as u32,
            s.start.unwrap_or(NONE),
            s.end.unwrap_or(NONE),
            s.left,
            s.right,
            s.first_dir.into(),
            s.last_dir.into(),
        ]);
    }
    for store in [&mut g.nodes, &mut g.segments, &mut g.points] {
        for _ in 0..dice.pick(&[0, 0, 1, 3]) {
            store.push(dice.pick(&[0, 1, NONE]));
        }
    }
    g
}

/// The graph that words describe, for the Rust: only of words that the judge accepts.
pub fn read(g: &Graph) -> BoundaryGraph {
    let named = |k: u32| (k != NONE).then_some(k);
    let nodes = g
        .nodes
        .chunks_exact(6)
        .take(g.node_count as usize)
        .map(|r| Node {
            corner: PointI32 {
                x: r[0] as i32,
                y: r[1] as i32,
            },
            out: [2, 3, 4, 5].map(|k| {
                named(r[k]).map(|w| SegRef {
                    seg: w / 2,
                    forward: w % 2 == 0,
                })
            }),
        });
    let segments = g
        .segments
        .chunks_exact(8)
        .take(g.segment_count as usize)
        .map(|r| Segment {
            points: (r[0] as usize..(r[0] + r[1]) as usize)
                .map(|j| PointI32 {
                    x: g.points[2 * j] as i32,
                    y: g.points[2 * j + 1] as i32,
                })
                .collect(),
            start: named(r[2]),
            end: named(r[3]),
            left: r[4],
            right: r[5],
            first_dir: r[6] as u8,
            last_dir: r[7] as u8,
        });
    BoundaryGraph {
        nodes: nodes.collect(),
        segments: segments.collect(),
    }
}

/// One word, count, length or record changed.
pub fn damage(dice: &mut Dice, g: &mut Graph) {
    match dice.roll(13) {
        0..=2 => word(dice, &mut g.nodes),
        3..=6 => word(dice, &mut g.segments),
        7 | 8 => word(dice, &mut g.points),
        9 => {
            let count = if dice.roll(2) == 0 {
                &mut g.node_count
            } else {
                &mut g.segment_count
            };
            *count = dice.pick(&[count.wrapping_add(1), count.saturating_sub(1), NONE]);
        }
        10 => {
            let short = 1 + dice.roll(2);
            let store = match dice.roll(3) {
                0 => &mut g.nodes,
                1 => &mut g.segments,
                _ => &mut g.points,
            };
            store.truncate(store.len().saturating_sub(short));
        }
        11 => copy(dice, &mut g.segments, 8, g.segment_count, false),
        _ => copy(dice, &mut g.nodes, 6, g.node_count, true),
    }
}

fn word(dice: &mut Dice, words: &mut [u32]) {
    if words.is_empty() {
        return;
    }
    let i = dice.roll(words.len());
    let (v, other) = (words[i], words[dice.roll(words.len())]);
    let any = dice.roll(6) as u32;
    words[i] = dice.pick(&[
        v.wrapping_add(1),
        v.wrapping_sub(1),
        NONE,
        0,
        any,
        other,
        v ^ 1,
    ]);
}

/// Two records the same, or swapped.
fn copy(dice: &mut Dice, words: &mut [u32], size: usize, count: u32, swap: bool) {
    if count < 2 {
        return;
    }
    let (i, j) = (dice.roll(count as usize), dice.roll(count as usize));
    for k in 0..size {
        if swap {
            words.swap(size * i + k, size * j + k);
        } else {
            words[size * i + k] = words[size * j + k];
        }
    }
}
