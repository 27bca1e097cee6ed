//! How long the call takes beside the calls and the Rust's assembly: CPU time of the thread, the least of several rounds, in turns.

use crate::graphs::Dice;
use crate::library::{self, Graph, Map, Stores};
use oracle::{assemble, extract, label_map};

#[repr(C)]
struct Timespec {
    seconds: i64,
    nanoseconds: i64,
}

extern "C" {
    fn clock_gettime(clock: i32, time: *mut Timespec) -> i32;
}

const CLOCK_THREAD_CPUTIME_ID: i32 = 3;

fn now() -> u64 {
    let mut time = Timespec {
        seconds: 0,
        nanoseconds: 0,
    };
    // SAFETY: the struct is the C library's on 64-bit Linux.
    assert_eq!(
        unsafe { clock_gettime(CLOCK_THREAD_CPUTIME_ID, &mut time) },
        0
    );
    time.seconds as u64 * 1_000_000_000 + time.nanoseconds as u64
}

const KINDS: [&str; 5] = ["solid", "blobs", "noise", "checker", "distinct"];

fn map(kind: &str, side: u32) -> Map {
    let mut dice = Dice(u64::from(side));
    let wave = |v: u32, long: f64| (f64::from(v) / long).sin();
    let mut label = |x: u32, y: u32| match kind {
        "solid" => 0,
        "blobs" => (3.0 + wave(x, 9.0) + wave(y, 7.0) + wave(x + y, 13.0)).clamp(0.0, 5.0) as u32,
        "noise" => dice.roll(8) as u32,
        "checker" => (x + y) % 2,
        _ => y * side + x,
    };
    let labels = (0..side)
        .flat_map(|y| (0..side).map(move |x| (x, y)))
        .map(|(x, y)| label(x, y))
        .collect();
    Map {
        mode: 0,
        width: side,
        height: side,
        paints: side * side,
        labels,
    }
}

pub fn measure() {
    println!("kind\tside\tRust\tgraph\twhole\tassemble\ttest\tassembly\ttest / assembly\tassemble / Rust\tassemble / whole");
    for kind in KINDS {
        for side in [256, 512, 1024] {
            let map = map(kind, side);
            let mut one = Stores::new(&map, [0; 6], 0);
            let counts = library::size(&map, &mut one);
            let room = [
                counts[1], counts[2], counts[3], counts[4], counts[5], counts[6],
            ];
            let mut stores = Stores::new(&map, room, 0);
            assert_eq!(library::graph(&map, &mut stores)[0], 0);
            let g = Graph {
                nodes: stores.nodes.clone(),
                node_count: counts[1],
                segments: stores.segments.clone(),
                segment_count: counts[2],
                points: stores.points.clone(),
            };
            // Refused at the first look, and at the last word of the test: their times tell the test's own, and the assembly's.
            let first = Graph {
                node_count: counts[1] + 1,
                ..g.clone()
            };
            let mut last = g.clone();
            match last.nodes.last_mut() {
                Some(out) => *out ^= 1,
                None => last.segments[7] = 1,
            }
            let rust = label_map(side, side, map.paints, &map.labels);
            let traced = extract(&rust);
            let mut least = [u64::MAX; 6];
            for _ in 0..7 {
                let calls: [&mut dyn FnMut(&mut Stores); 6] = [
                    &mut |_| drop(std::hint::black_box(assemble(&traced, &rust))),
                    &mut |s| assert_eq!(library::graph(&map, s)[0], 0),
                    &mut |s| assert_eq!(library::whole(&map, s)[0], 0),
                    &mut |s| assert_eq!(library::assemble(&map, &g, s)[0], 0),
                    &mut |s| assert_eq!(library::assemble(&map, &first, s)[0], 15),
                    &mut |s| assert_eq!(library::assemble(&map, &last, s)[0], 15),
                ];
                for (least, call) in least.iter_mut().zip(calls) {
                    let start = now();
                    call(&mut stores);
                    *least = (*least).min(now() - start);
                }
            }
            let ms = least.map(|t| t as f64 / 1e6);
            let [rust, graph, whole, all, first, last] = ms;
            let (test, assembly) = (last - first, all - last);
            println!(
                "{kind}\t{side}\t{rust:.2}\t{graph:.2}\t{whole:.2}\t{all:.2}\t{test:.2}\t{assembly:.2}\t{:.2}\t{:.2}\t{:.2}",
                test / assembly, all / rust, all / whole
            );
        }
    }
}
