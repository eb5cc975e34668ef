//! Where there is no memory, a call is refused by 7 and nothing panics; when there is, the same caller answers. Calls that are alike allocate once.

use punelavoh::{column, Caller, Reads, Refusal, Sample, Settings};
use std::alloc::{GlobalAlloc, Layout, System};
use std::sync::atomic::{AtomicUsize, Ordering::SeqCst};

/// Allocations above this many bytes fail.
static MOST: AtomicUsize = AtomicUsize::new(usize::MAX);
static MADE: AtomicUsize = AtomicUsize::new(0);

struct Limited;

// SAFETY: what is handed out and taken back is the system's; failing is allowed.
unsafe impl GlobalAlloc for Limited {
    unsafe fn alloc(&self, layout: Layout) -> *mut u8 {
        MADE.fetch_add(1, SeqCst);
        if layout.size() > MOST.load(SeqCst) {
            return std::ptr::null_mut();
        }
        // SAFETY: the caller's promise is passed on.
        unsafe { System.alloc(layout) }
    }

    unsafe fn dealloc(&self, pointer: *mut u8, layout: Layout) {
        // SAFETY: the caller's promise is passed on.
        unsafe { System.dealloc(pointer, layout) }
    }
}

#[global_allocator]
static LIMITED: Limited = Limited;

/// Without the test harness, whose thread allocates too.
fn main() {
    let mut reads = Reads::new();
    reads.push(b"CAAGTGG", &[40; 7]);
    let sample = reads.sample(b"CAACTGG");
    let settings = Settings { k: 3, threshold: 2, ..Settings::default() };
    let log10 = column(64);
    let mut caller = Caller::new();
    for most in [0, 100, 20_000, 200_000, 2_000_000, 4_000_000] {
        MOST.store(most, SeqCst);
        let (list, graph) = (caller.list(&settings, &sample, &log10).err(), caller.graph(&settings, &sample).err());
        let broken = caller.list(&settings, &Sample { reference: b"CA", ..sample }, &log10).err();
        MOST.store(usize::MAX, SeqCst);
        assert_eq!((list, broken), (Some(Refusal::ShortSlice), Some(Refusal::ReferenceLength)), "{most}");
        assert_eq!(graph, (most < 400_000).then_some(Refusal::ShortSlice), "{most}");
    }
    assert_eq!(caller.list(&settings, &sample, &log10).map(|list| list.len()), Ok(1));
    let made = MADE.load(SeqCst);
    let smaller = Settings { k: 2, asked: 3, ..settings };
    for _ in 0..3 {
        assert!(caller.list(&smaller, &sample, &log10).is_ok() && caller.graph(&settings, &sample).is_ok());
    }
    assert_eq!(MADE.load(SeqCst), made, "a call that is no larger has allocated");
}
