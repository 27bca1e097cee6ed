//! Counts the memory of both: kind, side, whose, bytes. For the Rust it is the highest sum of live heap bytes during `extract` and
//! `assemble`, their results included; for the library the bytes lent to `whole`. Neither counts the labels.

use bench::{Lent, Map, KINDS};
use oracle::{assemble, extract, label_map};
use std::alloc::{GlobalAlloc, Layout, System};
use std::sync::atomic::{AtomicUsize, Ordering::Relaxed};

/// The system's allocator, with the live bytes and their highest sum kept.
struct Counting;

static LIVE: AtomicUsize = AtomicUsize::new(0);
static HIGHEST: AtomicUsize = AtomicUsize::new(0);

fn grown(bytes: usize) {
    let live = LIVE.fetch_add(bytes, Relaxed) + bytes;
    HIGHEST.fetch_max(live, Relaxed);
}

// SAFETY: the system's allocator does the work. `realloc` and `alloc_zeroed` are counted too; a block that is moved by `realloc`
// counts as its new size alone.
unsafe impl GlobalAlloc for Counting {
    unsafe fn alloc(&self, layout: Layout) -> *mut u8 {
        grown(layout.size());
        unsafe { System.alloc(layout) }
    }

    unsafe fn alloc_zeroed(&self, layout: Layout) -> *mut u8 {
        grown(layout.size());
        unsafe { System.alloc_zeroed(layout) }
    }

    unsafe fn realloc(&self, block: *mut u8, layout: Layout, size: usize) -> *mut u8 {
        LIVE.fetch_sub(layout.size(), Relaxed);
        grown(size);
        unsafe { System.realloc(block, layout, size) }
    }

    unsafe fn dealloc(&self, block: *mut u8, layout: Layout) {
        LIVE.fetch_sub(layout.size(), Relaxed);
        unsafe { System.dealloc(block, layout) }
    }
}

#[global_allocator]
static ALLOCATOR: Counting = Counting;

fn main() {
    let words: Vec<String> = std::env::args().skip(1).collect();
    let side: u32 = words[0].parse().expect("usage: memory SIDE");
    for kind in KINDS {
        let map = Map::new(kind, side);
        let rust = label_map(map.side, map.side, map.paints, &map.labels);
        let before = LIVE.load(Relaxed);
        HIGHEST.store(before, Relaxed);
        let graph = extract(&rust);
        let faces = assemble(&graph, &rust);
        println!(
            "{kind}\t{side}\trust_bytes\t{}",
            HIGHEST.load(Relaxed) - before
        );
        drop((graph, faces, rust));
        println!(
            "{kind}\t{side}\tlent_bytes\t{}",
            Lent::for_map(&map).bytes()
        );
    }
}
