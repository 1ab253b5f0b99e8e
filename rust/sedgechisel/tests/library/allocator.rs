//! The allocator of the tests. Of each thread it counts what was taken and not given back, and it refuses where it is
//! told to.

use std::alloc::{GlobalAlloc, Layout, System};
use std::cell::Cell;
use std::ptr::null_mut;

/// What a thread has taken and not given back.
#[derive(Clone, Copy, Debug, Default, PartialEq, Eq)]
pub struct Live {
    pub allocations: isize,
    pub octets: isize,
}

/// Which allocations are refused: none before `after` more have been made, and then one, or all.
#[derive(Clone, Copy, Debug, Default)]
pub struct Refusals {
    pub after: u32,
    pub all: bool,
}

thread_local! {
    static LIVE: Cell<Live> = const { Cell::new(Live { allocations: 0, octets: 0 }) };
    static DUE: Cell<Option<Refusals>> = const { Cell::new(None) };
    static REFUSED: Cell<u32> = const { Cell::new(0) };
}

pub fn live() -> Live {
    LIVE.get()
}

/// Makes a call of which some allocations are refused; returns what it did, and whether any was.
pub fn refusing<T>(refusals: Refusals, call: impl FnOnce() -> T) -> (T, bool) {
    REFUSED.set(0);
    DUE.set(Some(refusals));
    let answer = call();
    DUE.set(None);
    (answer, REFUSED.get() > 0)
}

fn is_refused() -> bool {
    let Some(Refusals { after, all }) = DUE.get() else { return false };
    let is_due = after == 0;
    DUE.set((all || !is_due).then_some(Refusals { after: after.saturating_sub(1), all }));
    REFUSED.set(REFUSED.get() + u32::from(is_due));
    is_due
}

fn count(allocations: isize, octets: isize) {
    let live = LIVE.get();
    LIVE.set(Live { allocations: live.allocations + allocations, octets: live.octets + octets });
}

struct Counting;

#[global_allocator]
static COUNTING: Counting = Counting;

// SAFETY: each call is that of the system's allocator, or null. A layout's size is at most that of an `isize`.
unsafe impl GlobalAlloc for Counting {
    unsafe fn alloc(&self, layout: Layout) -> *mut u8 {
        if is_refused() {
            return null_mut();
        }
        count(1, layout.size() as isize);
        unsafe { System.alloc(layout) }
    }

    unsafe fn dealloc(&self, at: *mut u8, layout: Layout) {
        count(-1, -(layout.size() as isize));
        unsafe { System.dealloc(at, layout) }
    }

    unsafe fn realloc(&self, at: *mut u8, layout: Layout, size: usize) -> *mut u8 {
        if is_refused() {
            return null_mut();
        }
        count(0, size as isize - layout.size() as isize);
        unsafe { System.realloc(at, layout, size) }
    }
}
