//! Checking, evaluating and translating allocate nothing.

use barfigol_peer::{check, evaluate, translate};
use barfigol_tables::calls::{CHOICES, MOST_BYTES};
use barfigol_tables::{limits, trials};
use std::alloc::{GlobalAlloc, Layout, System};
use std::cell::Cell;

thread_local! {
    /// How often this thread asked for memory.
    static REQUESTS: Cell<usize> = const { Cell::new(0) };
}

/// The system's allocator, with a count of requests.
struct Counting;

// Sound because every call goes on to the system's allocator as it is.
unsafe impl GlobalAlloc for Counting {
    unsafe fn alloc(&self, layout: Layout) -> *mut u8 {
        let _ = REQUESTS.try_with(|requests| requests.set(requests.get() + 1));
        System.alloc(layout)
    }

    unsafe fn dealloc(&self, place: *mut u8, layout: Layout) {
        System.dealloc(place, layout);
    }
}

#[global_allocator]
static COUNTING: Counting = Counting;

fn requests() -> usize {
    REQUESTS.with(Cell::get)
}

#[test]
fn nothing_is_allocated() {
    let tables = [
        trials::p2(),
        limits::records(2_000),
        limits::slot_values(100),
        limits::constant(i32::MAX),
    ];
    let mut out = vec![0; MOST_BYTES];
    for table in tables {
        let bytes = table.bytes();
        let assignment: Vec<i32> = table.variables.iter().map(|of| of.low).collect();
        let before = requests();
        let checked = check(&bytes);
        for choice in CHOICES {
            let evaluated = evaluate(choice, &bytes, &assignment, 9_999, &mut out);
            let translated = translate(choice, &bytes, &mut out);
            assert_eq!((checked.number, evaluated.number % 8), (0, 0));
            assert_eq!(translated.number % 8, 0);
        }
        assert_eq!(requests(), before);
    }
}
