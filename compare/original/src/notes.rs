//! What the patched search notes down and reads on its way.

use std::cell::{Cell, RefCell};

thread_local! {
    static LONGEST: Cell<usize> = const { Cell::new(0) };
    static MISSING: Cell<bool> = const { Cell::new(false) };
    static COLUMN: RefCell<Vec<f64>> = const { RefCell::new(Vec::new()) };
}

/// Before a search: its column, and nothing noted.
pub fn start(column: &[f64]) {
    LONGEST.set(0);
    MISSING.set(false);
    COLUMN.with_borrow_mut(|c| {
        c.clear();
        c.extend_from_slice(column);
    });
}

/// The waiting list has this length.
pub fn waiting(length: usize) {
    LONGEST.set(LONGEST.get().max(length));
}

/// The original's `log_penalty`, with the column in place of the logarithm. A place that the column lacks is noted and costs nothing.
pub fn column_penalty(count: u32, total: u32) -> f64 {
    if total == 0 {
        return 0.0;
    }
    COLUMN.with_borrow(|column| match (column.get(count.max(1) as usize), column.get(total.max(1) as usize)) {
        (Some(c), Some(t)) => c - t,
        _ => {
            MISSING.set(true);
            0.0
        }
    })
}

/// After a search: the longest waiting list, and whether a place was missing.
pub fn end() -> (usize, bool) {
    (LONGEST.get(), MISSING.get())
}
