//! The memory of whole runs: the smallest lists that the library settles the input in, and the most that the crate has on the heap at once.
//! The library takes no memory of its own: what it links needs no allocator.

use crate::inputs::outlines;
use ciwetanos::raw;
use oracle::{parts, Row};
use std::alloc::{GlobalAlloc, Layout, System};
use std::sync::atomic::{AtomicUsize, Ordering::Relaxed};

/// The system's allocator, which also says how much is in use and how much ever was.
pub struct Counting;

static USED: AtomicUsize = AtomicUsize::new(0);
static MOST: AtomicUsize = AtomicUsize::new(0);

// It hands every request on as it is.
unsafe impl GlobalAlloc for Counting {
    unsafe fn alloc(&self, layout: Layout) -> *mut u8 {
        let used = USED.fetch_add(layout.size(), Relaxed) + layout.size();
        MOST.fetch_max(used, Relaxed);
        System.alloc(layout)
    }

    unsafe fn dealloc(&self, at: *mut u8, layout: Layout) {
        USED.fetch_sub(layout.size(), Relaxed);
        System.dealloc(at, layout)
    }
}

pub fn tell() {
    println!("{:40} {:>12} {:>12} {:>8}   segments, marks, scan entries", "", "ours, bytes", "Rust, bytes", "ratio");
    for (kind, size, starts) in crate::rows::RUNS {
        for n in starts {
            let input = outlines(n, size);
            let room = least_room(&input);
            let [segments, marks, scan] = room;
            let (ours, theirs) = (25 * segments + 12 * marks + 24 * scan, of_crate(&input));
            let ratio = ours as f64 / theirs as f64;
            println!(
                "{:40} {ours:12} {theirs:12} {ratio:8.2}   {segments}, {marks}, {scan}",
                format!("run {n} {kind}")
            );
        }
    }
}

/// The most on the heap from when the crate makes its segments of the rows until it has their bytes.
fn of_crate(input: &[Row]) -> usize {
    let before = USED.load(Relaxed);
    MOST.store(before, Relaxed);
    std::hint::black_box(parts::run(input, 1, 3));
    MOST.load(Relaxed) - before
}

/// The least segments, marks and scan entries that are enough: each found with the most of the other two.
fn least_room(input: &[Row]) -> [usize; 3] {
    let most = [2048, 65_536, 2048];
    let least = [0, 1, 2]
        .map(|k| least(most[k], |room| settles(input, std::array::from_fn(|j| if j == k { room } else { most[j] }))));
    assert!(settles(input, least), "each is enough, but not all three together");
    least
}

/// The least number up to `most` that is enough, by halving.
fn least(most: usize, is_enough: impl Fn(usize) -> bool) -> usize {
    let (mut low, mut high) = (0, most);
    while low < high {
        let middle = (low + high) / 2;
        if is_enough(middle) {
            high = middle;
        } else {
            low = middle + 1;
        }
    }
    high
}

fn settles(input: &[Row], [segments, marks, scan]: [usize; 3]) -> bool {
    raw::Lists::with_room(segments, marks, scan).overlay(input.as_flattened(), input.len(), 1, 3, 64).answer == 0
}
