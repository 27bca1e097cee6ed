//! Random maps, names and stores: what `mosaic_listing` answers and leaves, against a listing made from the unchanged Rust's faces.

use std::collections::BTreeMap;

use oracle::{assemble, extract, label_map, BoundaryGraph, Contour, SegRef, OUTSIDE};

extern "C" {
    fn mosaic_listing(
        mode: u32,
        width: u32,
        height: u32,
        paints: u32,
        labels: *const u32,
        labels_len: usize,
        work: *mut u32,
        work_len: usize,
        named: *const u32,
        named_len: usize,
        words: *mut u32,
        words_len: usize,
        answer: *mut [u32; 2],
    );
}

/// A step: y, x and direction, so that the earliest is the least.
type Step = (u32, u32, u32);

/// The steps of a reference, by its points.
fn steps(graph: &BoundaryGraph, reference: &SegRef) -> Vec<Step> {
    let points = &graph.segments[reference.seg as usize].points;
    let mut corners: Vec<(i64, i64)> = points.iter().map(|p| (p.x as i64, p.y as i64)).collect();
    if !reference.forward {
        corners.reverse();
    }
    let step = |pair: &[(i64, i64)]| {
        let (from, to) = (pair[0], pair[1]);
        let direction = match (to.0 - from.0, to.1 - from.1) {
            (0, -1) => 0,
            (1, 0) => 1,
            (0, 1) => 2,
            (-1, 0) => 3,
            other => panic!("a step of {other:?}"),
        };
        (from.1 as u32, from.0 as u32, direction)
    };
    corners.windows(2).map(step).collect()
}

/// A contour from its earliest step on.
fn contour(graph: &BoundaryGraph, Contour(references): &Contour) -> Vec<Step> {
    let mut all: Vec<Step> = references.iter().flat_map(|r| steps(graph, r)).collect();
    let earliest = (0..all.len()).min_by_key(|&i| all[i]).expect("a contour has a step");
    all.rotate_left(earliest);
    all
}

/// The listing of a map as the Rust cuts it.
fn expected(width: u32, height: u32, paints: u32, labels: &[u32], named: &[u32]) -> Vec<u32> {
    let map = label_map(width, height, paints, labels);
    let graph = extract(&map);
    let mut words = Vec::new();
    for face in assemble(&graph, &map).iter().filter(|face| named.contains(&face.region)) {
        let mut contours: Vec<_> = face.contours.iter().map(|c| contour(&graph, c)).collect();
        contours.sort_by_key(|c| c[0]);
        words.extend([face.region, contours.len() as u32]);
        for c in contours {
            words.push(c.len() as u32);
            words.extend(c.iter().flat_map(|&(y, x, d)| [x, y, d]));
        }
    }
    words
}

/// A splitmix generator.
struct Random(u64);

impl Random {
    fn below(&mut self, n: u32) -> u32 {
        self.0 = self.0.wrapping_add(0x9e37_79b9_7f4a_7c15);
        let mut z = self.0;
        z = (z ^ (z >> 30)).wrapping_mul(0xbf58_476d_1ce4_e5b9);
        z = (z ^ (z >> 27)).wrapping_mul(0x94d0_49bb_1331_11eb);
        ((((z ^ (z >> 31)) >> 32) * u64::from(n)) >> 32) as u32
    }

    fn pick<T: Copy>(&mut self, from: &[T]) -> T {
        from[self.below(from.len() as u32) as usize]
    }

    /// Labels that repeat a neighbour more or less often.
    fn labels(&mut self, width: u32, height: u32, palette: &[u32]) -> Vec<u32> {
        let repeats = self.pick(&[0, 30, 60, 90]);
        let mut labels: Vec<u32> = Vec::new();
        for i in 0..(width * height) as usize {
            let back = self.pick(&[1, width as usize, width as usize + 1]);
            let near = i.checked_sub(back).map(|j| labels[j]);
            let fresh = self.pick(palette);
            labels.push(near.filter(|_| self.below(100) < repeats).unwrap_or(fresh));
        }
        labels
    }
}

/// What a store holds before a call.
const OLD: u32 = 3_000_000_000;

const PALETTES: [&[u32]; 7] = [
    &[0, 1],
    &[0, 1, 2, 3, OUTSIDE],
    &[0, OUTSIDE],
    &[5, 9, 10, OUTSIDE],
    &[OUTSIDE - 1, 0, 1, OUTSIDE],
    &[0, 1, 2, 3, 4, 5, 6, 7, 8, 9, 10, 11],
    &[7],
];

/// One map with its names and stores: how many words were listed, the number, and whether the library says the same.
fn compared(random: &mut Random) -> (usize, u32, bool) {
    let side = random.pick(&[4, 7, 16]);
    let (width, height) = (random.below(side + 1), random.below(side + 1));
    let palette = random.pick(&PALETTES);
    let paints = random.pick(&[0, 1, 2, 3, 6, 10, OUTSIDE]);
    let labels = random.labels(width, height, palette);
    let named: Vec<u32> = (0..random.below(6)).map(|_| random.pick(&[palette, &[0, 1, 77, OUTSIDE][..]].concat())).collect();
    let mode = random.pick(&[0, 1, 4_000_000_000]);
    // A mode but 0 reads what is not painted as OUTSIDE.
    let read: Vec<u32> = labels.iter().map(|&l| if mode == 0 || l < paints { l } else { OUTSIDE }).collect();
    let mut words = expected(width, height, paints, &read, &named);
    let planes = 8 * (width as usize + 1) * (height as usize + 1);
    let (mut work_len, mut room, mut number) = (planes + random.pick(&[0, 0, 50]), words.len() + random.pick(&[0, 0, 3]), 0);
    let mut labels_len = labels.len();
    match random.below(20) {
        0 if labels_len > 0 => (labels_len, number) = (labels_len - 1, 2),
        1 => (work_len, number) = (planes - 1, 3),
        2 | 3 if !words.is_empty() => (room, number) = (words.len() - 1 - random.below(words.len() as u32) as usize, 13),
        _ => (),
    }
    if number != 0 {
        words.clear();
    }
    let (mut work, mut store, mut answer) = (vec![OLD; work_len], vec![OLD; room], [OLD; 2]);
    // SAFETY: each pointer and length is that of a vector of its own.
    unsafe {
        mosaic_listing(
            mode,
            width,
            height,
            paints,
            labels.as_ptr(),
            labels_len,
            work.as_mut_ptr(),
            work.len(),
            named.as_ptr(),
            named.len(),
            store.as_mut_ptr(),
            store.len(),
            &mut answer,
        );
    }
    let cleared = if number == 0 || number == 13 { planes } else { 0 };
    let same = answer == [number, words.len() as u32]
        && store[..words.len()] == words[..]
        && store[words.len()..].iter().all(|&w| w == OLD)
        && work[..cleared].iter().all(|&w| w == 0)
        && work[cleared..].iter().all(|&w| w == OLD);
    if !same {
        println!("mode {mode}, {width} x {height}, {paints} paints, {labels:?}, named {named:?}: {answer:?} for {number}, {words:?}");
    }
    (words.len(), number, same)
}

fn main() {
    let mut arguments = std::env::args().skip(1).map(|a| a.parse::<u64>().expect("a number"));
    let (maps, seed) = (arguments.next().unwrap_or(20_000), arguments.next().unwrap_or(1));
    let mut random = Random(seed);
    let (mut words, mut differences, mut numbers) = (0, 0, BTreeMap::new());
    for _ in 0..maps {
        let (listed, number, same) = compared(&mut random);
        words += listed;
        differences += u64::from(!same);
        *numbers.entry(number).or_insert(0) += 1;
    }
    println!("numbers: {numbers:?}");
    println!("{maps} maps, {words} words, {differences} differences");
    std::process::exit(i32::from(differences > 0));
}
