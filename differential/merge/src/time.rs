//! Times the Rust and the library on the same large maps, in turns: the least of some rounds, in milliseconds.
//!
//! The clock is the thread's CPU time. The library's stores are lent warm and full of old words; `binding`, the Rust binding, allocates
//! them within its time, as the Rust does.

use crate::calls::work_words;
use crate::maps::large;
use mosaic::{merge_similar, merge_words};
use oracle::coloured_map;

/// Kind, side, paints, limit, and whether the colours are a slope of greys.
pub const MAPS: [(&str, u32, u32, i32, bool); 18] = [
    ("solid", 256, 2, 30, false),
    ("blobs", 256, 8, 30, false),
    ("noise", 256, 8, 30, false),
    ("noise", 256, 64, 30, false),
    ("noise", 256, 4096, 30, false),
    ("distinct", 256, 65536, 30, false),
    ("solid", 1024, 2, 30, false),
    ("blobs", 1024, 8, 30, false),
    ("blobs", 1024, 64, 6, true),
    ("blobs", 1024, 512, 6, true),
    ("stripes", 1024, 256, 6, true),
    ("blocks", 1024, 1024, 30, false),
    ("checker", 1024, 8, 30, false),
    ("noise", 1024, 8, 30, false),
    ("noise", 1024, 64, 30, false),
    ("noise", 1024, 512, 30, false),
    ("noise", 1024, 4096, 30, false),
    ("distinct", 1024, 1048576, 30, false),
];

#[repr(C)]
struct Timespec {
    seconds: i64,
    nanoseconds: i64,
}

extern "C" {
    fn clock_gettime(clock: i32, time: *mut Timespec) -> i32;
}

const CLOCK_THREAD_CPUTIME_ID: i32 = 3;

/// The CPU time of this thread, in milliseconds.
fn now() -> f64 {
    let mut time = Timespec {
        seconds: 0,
        nanoseconds: 0,
    };
    // SAFETY: the struct is the C library's on 64-bit Linux.
    let failed = unsafe { clock_gettime(CLOCK_THREAD_CPUTIME_ID, &mut time) };
    assert_eq!(failed, 0);
    time.seconds as f64 * 1e3 + time.nanoseconds as f64 / 1e6
}

/// How long it takes; what it makes is dropped after the clock has stopped.
fn timed<T>(call: impl FnOnce() -> T) -> f64 {
    let start = now();
    let made = std::hint::black_box(call());
    let time = now() - start;
    drop(made);
    time
}

pub fn table() {
    println!("| map | paints | limit | Rust | `mosaic_merge` | binding | `mosaic_merge` ÷ Rust | binding ÷ Rust |");
    println!("|---|---|---|---|---|---|---|---|");
    for (kind, side, paints, limit, slope) in MAPS {
        let job = large(kind, side, paints, limit, slope);
        let mut work = vec![0x5a5a_5a5a; work_words(&job)];
        let mut regions = vec![0x5a5a_5a5a; 12 * paints as usize];
        let mut least = [f64::MAX; 3];
        let rounds = if side < 1024 {
            15
        } else if paints > 4000 {
            2
        } else {
            7
        };
        for _ in 0..rounds {
            let mut map = coloured_map(side, side, &job.labels, &job.colours);
            least[0] = least[0].min(timed(|| map.merge_similar(limit)));

            let (mut labels, mut colours) = (job.labels.clone(), job.colours.clone());
            work.fill(0x5a5a_5a5a);
            regions.fill(0x5a5a_5a5a);
            let call = || {
                merge_words(
                    side,
                    side,
                    paints,
                    &mut labels,
                    &mut colours,
                    limit,
                    &mut work,
                    &mut regions,
                )
            };
            least[1] = least[1].min(timed(call));

            let mut labels = job.labels.clone();
            let (triples, _) = job.colours.as_chunks::<3>();
            let mut colours = triples.to_vec();
            let call = || merge_similar(side, side, &mut labels, &mut colours, limit);
            least[2] = least[2].min(timed(call));
        }
        let [rust, library, binding] = least;
        println!(
            "| {side}² {kind} | {paints} | {limit} | {rust:.2} | {library:.2} | {binding:.2} | {:.2} | {:.2} |",
            library / rust,
            binding / rust
        );
    }
}
