//! What an open reader holds.

mod common;

use common::*;
use std::alloc::{GlobalAlloc, Layout, System};
use std::io::Read;
use std::sync::atomic::{AtomicUsize, Ordering};

static HELD: AtomicUsize = AtomicUsize::new(0);

struct Counting;

// SAFETY: it is the system's, whose calls are counted.
unsafe impl GlobalAlloc for Counting {
    unsafe fn alloc(&self, layout: Layout) -> *mut u8 {
        HELD.fetch_add(layout.size(), Ordering::Relaxed);
        System.alloc(layout)
    }

    unsafe fn dealloc(&self, at: *mut u8, layout: Layout) {
        HELD.fetch_sub(layout.size(), Ordering::Relaxed);
        System.dealloc(at, layout)
    }
}

#[global_allocator]
static ALLOCATOR: Counting = Counting;

/// A block and the text of one, and little more, beside the library's 66 KiB.
#[test]
fn of_a_reader() {
    let file = sealed(&text_of(200_000));
    let before = HELD.load(Ordering::Relaxed);
    let mut reader = open(&file[..]).unwrap();
    reader.read_exact(&mut [0; 100]).unwrap();
    let held = HELD.load(Ordering::Relaxed) - before;
    assert!((131_000..133_000).contains(&held), "{held}");
}
