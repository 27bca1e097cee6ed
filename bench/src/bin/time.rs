//! Times the Rust and the library on the same maps, in turns. Prints a line for each map and call: kind, side, call, and the
//! nanoseconds of each round.
//!
//! The clock is the thread's CPU time, so that other programs' turns on the core do not count. The library's stores are lent warm and
//! exact; `cut`, the binding, allocates all of them within its time, as the Rust does.

use bench::{memory_left, store_words, Lent, Map, KINDS};
use mosaic::Cutter;
use oracle::{assemble, cut_list_of, extract, label_map, LabelMap};

#[repr(C)]
struct Timespec {
    seconds: i64,
    nanoseconds: i64,
}

extern "C" {
    fn clock_gettime(clock: i32, time: *mut Timespec) -> i32;
}

const CLOCK_THREAD_CPUTIME_ID: i32 = 3;

/// The CPU time of this thread, in nanoseconds.
fn now() -> u64 {
    let mut time = Timespec {
        seconds: 0,
        nanoseconds: 0,
    };
    // SAFETY: the struct is the C library's on 64-bit Linux.
    let failed = unsafe { clock_gettime(CLOCK_THREAD_CPUTIME_ID, &mut time) };
    assert_eq!(failed, 0);
    time.seconds as u64 * 1_000_000_000 + time.nanoseconds as u64
}

/// The times of one call.
struct Timer {
    call: &'static str,
    times: Vec<u64>,
}

impl Timer {
    fn new(call: &'static str) -> Timer {
        Timer {
            call,
            times: Vec::new(),
        }
    }

    /// Times it; what it makes is dropped after the clock has stopped, by the caller.
    fn time<T>(&mut self, call: impl FnOnce() -> T) -> T {
        let start = now();
        let made = std::hint::black_box(call());
        self.times.push(now() - start);
        made
    }

    fn print(self, map: &Map) {
        print!("{}\t{}\t{}", map.kind, map.side, self.call);
        for time in self.times {
            print!("\t{time}");
        }
        println!();
    }
}

/// Whether so many bytes can be had, with a gigabyte to spare. Where not, the output says so.
fn room_for(bytes: usize, call: &str, map: &Map) -> bool {
    let left = memory_left();
    let room = bytes + (1 << 30) <= left;
    if !room {
        println!(
            "# {} {}: {call} needs {bytes} bytes, {left} are left",
            map.kind, map.side
        );
    }
    room
}

/// All calls in turns.
fn both(map: &Map, rounds: usize) {
    // On the map that takes most, `distinct`: some 600 bytes for a pixel in the Rust, and 190 lent.
    if !room_for(800 * map.pixels(), "the Rust", map) {
        return;
    }
    let rust = label_map(map.side, map.side, map.paints, &map.labels);
    let mut lent = Lent::for_map(map);
    if map.side <= 1024 {
        agree(map, &rust, &mut lent);
    }
    let [mut t_extract, mut t_assemble] = ["extract", "assemble"].map(Timer::new);
    let [mut t_fill, mut t_size, mut t_graph, mut t_whole, mut t_cut] =
        ["fill", "size", "graph", "whole", "cut"].map(Timer::new);
    for _ in 0..rounds {
        let graph = t_extract.time(|| extract(&rust));
        let faces = t_assemble.time(|| assemble(&graph, &rust));
        drop((graph, faces));
        t_fill.time(|| lent.fill());
        t_size.time(|| lent.size(map));
        t_graph.time(|| lent.graph(map));
        t_whole.time(|| lent.whole(map));
        let list = t_cut.time(|| Cutter::new().cut(map.lent()));
        drop(list);
    }
    for timer in [
        t_extract, t_assemble, t_fill, t_size, t_graph, t_whole, t_cut,
    ] {
        timer.print(map);
    }
}

/// Stops where the two do not make the same cut list, word for word.
fn agree(map: &Map, rust: &LabelMap, lent: &mut Lent) {
    let graph = extract(rust);
    let list = cut_list_of(rust, &graph, &assemble(&graph, rust));
    lent.whole(map);
    assert!(list.stores() == lent.stores(), "{} {}", map.kind, map.side);
}

/// The library alone, on the longest sides, where its stores fit into memory.
fn longest(map: &Map, rounds: usize) {
    if !room_for(4 * map.work_words(), "size", map) {
        return;
    }
    let mut lent = Lent::work_only(map);
    lent.fill(); // so that every page is there
    let [mut t_fill, mut t_size, mut t_whole] = ["fill", "size", "whole"].map(Timer::new);
    let mut more = 0;
    for _ in 0..rounds {
        t_fill.time(|| lent.fill());
        let answer = t_size.time(|| lent.size(map));
        more = 4 * store_words(&answer).iter().sum::<usize>();
    }
    t_fill.print(map);
    t_size.print(map);
    if room_for(more, "whole", map) {
        lent.lend(map);
        for _ in 0..rounds {
            t_whole.time(|| lent.whole(map));
        }
        t_whole.print(map);
    }
}

fn main() {
    let words: Vec<String> = std::env::args().skip(1).collect();
    let side: u32 = words[0].parse().expect("usage: time SIDE ROUNDS [KIND...]");
    let rounds: usize = words[1].parse().expect("usage: time SIDE ROUNDS [KIND...]");
    for kind in KINDS {
        if words.len() > 2 && !words[2..].iter().any(|word| word == kind) {
            continue;
        }
        let map = Map::new(kind, side);
        if side > 8192 {
            longest(&map, rounds);
        } else {
            both(&map, rounds);
        }
    }
}
