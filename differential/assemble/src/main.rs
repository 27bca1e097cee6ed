//! The call `assemble` beside the Rust's, over graphs of other writers; and its refusals beside the judge's.

mod graphs;
mod judge;
mod library;
mod speed;

use graphs::Dice;
use judge::Judge;
use library::{Graph, Map, Stores};
use oracle::{cut_list_of, extract, label_map, LabelMap};

fn main() {
    let words: Vec<String> = std::env::args().skip(1).collect();
    let number = |i: usize| words[i].parse::<u64>().expect("a number");
    match words[0].as_str() {
        "speed" => speed::measure(),
        "graphs" => graphs_and_damage(number(1), number(2)),
        other => panic!("no form called {other}"),
    }
}

fn graphs_and_damage(whole: u64, damaged: u64) {
    let mut tally = Tally::default();
    for seed in 0..whole {
        tally.one(seed, 7, false);
    }
    for seed in 0..damaged {
        tally.one(1_000_000_000 + seed, 5, true);
    }
    println!(
        "{} graphs, {} accepted, {} refused with 15, {} with 7, 8 or 9, {} in two calls, {} differences",
        tally.graphs, tally.accepted, tally.strange, tally.short, tally.in_two, tally.differences
    );
    std::process::exit(i32::from(tally.differences != 0));
}

#[derive(Default)]
struct Tally {
    graphs: u64,
    accepted: u64,
    strange: u64,
    short: u64,
    in_two: u64,
    differences: u64,
}

impl Tally {
    fn one(&mut self, seed: u64, longest: usize, damaged: bool) {
        let mut dice = Dice(seed);
        let map = graphs::map(&mut dice, longest);
        let labels = map.read();
        let judge = Judge {
            width: map.width.into(),
            height: map.height.into(),
            labels: &labels,
        };
        let rust = label_map(map.width, map.height, map.paints, &labels);
        let traced = extract(&rust);
        let counts = cut_list_of(&rust, &traced, &oracle::assemble(&traced, &rust)).counts;
        let other = graphs::other_writer(&mut dice, &judge, &traced);
        let mut g = graphs::words(&mut dice, &other);
        if damaged {
            graphs::damage(&mut dice, &mut g);
        }
        let fits = judge.describes(&g);
        assert!(
            damaged || fits,
            "seed {seed}: the judge refuses a whole graph"
        );
        let mut room = [
            counts[0], counts[1], counts[2], counts[3], counts[4], counts[5],
        ];
        for records in &mut room[3..] {
            *records = if dice.roll(12) == 0 {
                records.saturating_sub(1)
            } else {
                *records + dice.roll(2) as u32
            };
        }
        self.graphs += 1;
        if let Err(what) = self.call(&map, &rust, &g, fits, counts, room) {
            self.differences += 1;
            println!("seed {seed}: {what}\n  {map:?}\n  {g:?}");
        }
        if !damaged {
            if let Err(what) = in_two(&map, room) {
                self.differences += 1;
                println!("seed {seed}: graph, then assemble: {what}\n  {map:?}");
            }
            self.in_two += 1;
        }
    }

    fn call(
        &mut self,
        map: &Map,
        rust: &LabelMap,
        g: &Graph,
        fits: bool,
        counts: [u32; 7],
        room: [u32; 6],
    ) -> Result<(), String> {
        const JUNK: u32 = 77;
        let mut stores = Stores::new(map, room, JUNK);
        stores.work.extend([JUNK; 3]);
        let lent = stores.clone();
        let answer = library::assemble(map, g, &mut stores);
        let number = match () {
            () if !fits => 15,
            () if room[3] < counts[3] => 7,
            () if room[4] < counts[4] => 8,
            () if room[5] < counts[5] => 9,
            () => 0,
        };
        let mut expected = [number, 0, 0, 0, 0, 0, 0, 0];
        expected[1..].copy_from_slice(&counts);
        if answer != expected {
            return Err(format!("answer {answer:?}, expected {expected:?}"));
        }
        let mut left = lent;
        left.work[..map.work_words()].fill(0);
        match number {
            0 => {
                self.accepted += 1;
                let graph = graphs::read(g);
                let list = cut_list_of(rust, &graph, &oracle::assemble(&graph, rust));
                left.references[..list.references.len()].copy_from_slice(&list.references);
                left.contours[..list.contours.len()].copy_from_slice(&list.contours);
                left.faces[..list.faces.len()].copy_from_slice(&list.faces);
            }
            15 => self.strange += 1,
            _ => self.short += 1,
        }
        if stores != left {
            return Err(format!("stores {stores:?}, expected {left:?}"));
        }
        Ok(())
    }
}

/// What `graph` leaves, assembled, is what `whole` leaves.
fn in_two(map: &Map, room: [u32; 6]) -> Result<(), String> {
    let mut desk = Stores::new(map, room, 78);
    let mut all = desk.clone();
    let traced = library::graph(map, &mut desk);
    let whole = library::whole(map, &mut all);
    if traced[0] != 0 {
        return Err(format!("graph answers {traced:?}"));
    }
    let g = Graph {
        nodes: desk.nodes.clone(),
        node_count: traced[1],
        segments: desk.segments.clone(),
        segment_count: traced[2],
        points: desk.points.clone(),
    };
    let bench = library::assemble(map, &g, &mut desk);
    if bench != whole {
        return Err(format!("answers {bench:?}, whole {whole:?}"));
    }
    if whole[0] != 0 {
        (all.nodes, all.segments, all.points) = (
            desk.nodes.clone(),
            desk.segments.clone(),
            desk.points.clone(),
        );
    }
    if desk != all {
        return Err(format!("left {desk:?}, whole {all:?}"));
    }
    Ok(())
}
