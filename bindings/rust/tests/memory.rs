//! Tests that handles take their memory of the program's heap, and free all of it. C's heap, with a
//! count, replaces that of the crate, which the feature `own-memory` leaves out.

use galliumtoad::{CardBuilder, Session};
use std::sync::atomic::{AtomicUsize, Ordering::SeqCst};

extern "C" {
    fn malloc(size: usize) -> *mut u8;
    fn realloc(block: *mut u8, size: usize) -> *mut u8;
    fn free(block: *mut u8);
}

#[repr(C)]
pub struct Taken {
    some: bool,
    at: *mut u8,
}

/// The number of blocks.
static TAKEN: AtomicUsize = AtomicUsize::new(0);

fn taken(at: *mut u8) -> Taken {
    assert!(!at.is_null(), "memory");
    Taken { some: true, at }
}

#[no_mangle]
pub extern "C" fn rattle_alloc(size: usize, _align: usize) -> Taken {
    TAKEN.fetch_add(1, SeqCst);
    // SAFETY: a size is all it needs.
    taken(unsafe { malloc(size.max(1)) })
}

/// # Safety
///
/// `block` comes from `rattle_alloc`, and is not used again.
#[no_mangle]
pub unsafe extern "C" fn rattle_dealloc(block: *mut u8) {
    TAKEN.fetch_sub(1, SeqCst);
    free(block);
}

/// # Safety
///
/// `block` comes from `rattle_alloc`, and is not used again.
#[no_mangle]
pub unsafe extern "C" fn rattle_realloc(
    block: *mut u8,
    _kept: usize,
    size: usize,
    _align: usize,
) -> Taken {
    taken(realloc(block, size.max(1)))
}

#[test]
fn handles_give_back_what_they_took() {
    let mut builder = CardBuilder::new().expect("memory");
    builder.app(b"OTHER").expect("an application");
    builder.object(0x5F20, b"JOE").expect("an object");
    let session = Session::start(builder.finish().expect("a card"));
    assert!(TAKEN.load(SeqCst) > 0);
    drop(session);
    assert_eq!(TAKEN.load(SeqCst), 0);
}
