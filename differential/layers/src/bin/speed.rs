//! Times the Rust's `from_segmentation` and the library's `mosaic_layers` on the same layers, in turns, after comparing their labels.
//! Prints for each case and call the least CPU time of all rounds, in milliseconds: speed [ROUNDS]

use layers::{flatten, flatten_room, Dice};
use oracle::{from_segmentation, segmentation};

const SIDE: u32 = 4096;

/// So many layers of a side, at chance places of the canvas, each pixel by its place in the layer.
struct Case {
    name: &'static str,
    count: u32,
    side: u32,
    bit: fn(u32, u32, u32, &mut Dice) -> bool,
}

const CASES: [Case; 9] = [
    Case {
        name: "full",
        count: 1,
        side: 4096,
        bit: |_, _, _, _| true,
    },
    Case {
        name: "blank",
        count: 1,
        side: 4096,
        bit: |_, _, _, _| false,
    },
    Case {
        name: "disc",
        count: 1,
        side: 4096,
        bit: disc,
    },
    Case {
        name: "noise",
        count: 1,
        side: 4096,
        bit: noise,
    },
    Case {
        name: "disc",
        count: 10,
        side: 4096,
        bit: disc,
    },
    Case {
        name: "noise",
        count: 10,
        side: 4096,
        bit: noise,
    },
    Case {
        name: "disc",
        count: 1000,
        side: 256,
        bit: disc,
    },
    Case {
        name: "noise",
        count: 1000,
        side: 256,
        bit: noise,
    },
    Case {
        name: "disc",
        count: 1000,
        side: 24,
        bit: disc,
    },
];

fn disc(x: u32, y: u32, side: u32, _: &mut Dice) -> bool {
    let from_middle = |a: u32| (2 * i64::from(a) + 1 - i64::from(side)).pow(2);
    from_middle(x) + from_middle(y) <= i64::from(side).pow(2)
}

fn noise(_: u32, _: u32, _: u32, dice: &mut Dice) -> bool {
    dice.roll(2) == 1
}

#[repr(C)]
struct Timespec {
    seconds: i64,
    nanoseconds: i64,
}

extern "C" {
    fn clock_gettime(clock: i32, time: *mut Timespec) -> i32;
}

const CLOCK_THREAD_CPUTIME_ID: i32 = 3;

/// The CPU time of this thread, in nanoseconds.
fn now() -> u64 {
    let mut time = Timespec {
        seconds: 0,
        nanoseconds: 0,
    };
    // SAFETY: the struct is the C library's on 64-bit Linux.
    let failed = unsafe { clock_gettime(CLOCK_THREAD_CPUTIME_ID, &mut time) };
    assert_eq!(failed, 0);
    time.seconds as u64 * 1_000_000_000 + time.nanoseconds as u64
}

fn made(case: &Case) -> (Vec<u32>, Vec<u8>) {
    let mut dice = Dice(1);
    let (mut words, mut masks) = (Vec::new(), Vec::new());
    for _ in 0..case.count {
        let [x, y] = [(); 2].map(|_| dice.roll(SIDE - case.side + 1));
        words.extend([x, y, case.side, case.side]);
        for y in 0..case.side {
            for x in 0..case.side {
                masks.push(u8::from((case.bit)(x, y, case.side, &mut dice)));
            }
        }
    }
    (words, masks)
}

fn main() {
    let rounds = std::env::args()
        .nth(1)
        .map_or(7, |word| word.parse().expect("usage: speed [ROUNDS]"));
    println!("layers\tside\tmasks\tRust\tlent\tallocated\tlent / Rust\tallocated / Rust");
    for case in &CASES {
        let (words, masks) = made(case);
        let seg = segmentation(SIDE, SIDE, &words, &masks);
        let mut lent = vec![0; (SIDE * SIDE) as usize];
        let [mut rust, mut warm, mut fresh] = [u64::MAX; 3];
        for _ in 0..rounds {
            let start = now();
            let map = from_segmentation(&seg);
            rust = rust.min(now() - start);

            let start = now();
            let number = flatten(SIDE, SIDE, &words, &masks, &mut lent);
            warm = warm.min(now() - start);
            assert!(number == 0 && map.labels == lent);
            drop(map);

            let start = now();
            let mut own = Vec::<u32>::with_capacity((SIDE * SIDE) as usize);
            flatten_room(SIDE, SIDE, &words, &masks, own.spare_capacity_mut());
            fresh = fresh.min(now() - start);
        }
        let ms = |t: u64| t as f64 / 1e6;
        println!(
            "{}\t{}\t{}\t{:.1}\t{:.1}\t{:.1}\t{:.2}\t{:.2}",
            case.count,
            case.side,
            case.name,
            ms(rust),
            ms(warm),
            ms(fresh),
            ms(warm) / ms(rust),
            ms(fresh) / ms(rust)
        );
    }
}
