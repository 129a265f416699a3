//! The three functions that the library takes memory with, over the program's allocator, as
//! `heap.c` has them for a program in C. Blocks held values and commands, so each is wiped before
//! it is freed, also one that is made longer or shorter.
#![allow(clippy::cast_ptr_alignment)] // blocks and their heads are aligned to `HEAD`

use crate::wiped::wipe_from;
use alloc::alloc::{alloc, dealloc, Layout};
use core::ptr::NonNull;

// Each library of a process has its own functions, since each may have another allocator. They are
// not exported, so no call of the archive goes to those of another library.
core::arch::global_asm!(
    ".hidden rattle_alloc",
    ".hidden rattle_realloc",
    ".hidden rattle_dealloc"
);

/// Before each block is its size, in as many bytes as keep the block aligned. A block ends where a
/// word of this size does.
const HEAD: usize = 16;

/// C's `gt_taken`: if `some` is false, `at` is any pointer except NULL.
#[repr(C)]
pub struct Taken {
    some: bool,
    at: NonNull<u8>,
}

const NONE: Taken = Taken {
    some: false,
    at: NonNull::dangling(),
};

/// The layout of a block of `size` bytes with its head, if there is one.
fn layout(size: usize) -> Option<Layout> {
    let whole = size.checked_add(2 * HEAD - 1)? / HEAD * HEAD;
    Layout::from_size_align(whole, HEAD).ok()
}

fn taken(size: usize) -> Option<NonNull<u8>> {
    let layout = layout(size)?;
    // SAFETY: the layout has a size. If there is a block, its head is aligned and has room.
    unsafe {
        let whole = NonNull::new(alloc(layout))?.as_ptr();
        whole.cast::<usize>().write(size);
        NonNull::new(whole.add(HEAD))
    }
}

#[no_mangle]
extern "C" fn rattle_alloc(size: usize, _align: usize) -> Taken {
    taken(size).map_or(NONE, |at| Taken { some: true, at })
}

/// # Safety
///
/// The block comes from these functions, has `kept` bytes or more, and is not used again if there
/// is a new one.
#[no_mangle]
unsafe extern "C" fn rattle_realloc(
    block: *mut u8,
    kept: usize,
    size: usize,
    align: usize,
) -> Taken {
    let taken = rattle_alloc(size, align);
    if taken.some {
        let at = taken.at.as_ptr();
        at.copy_from_nonoverlapping(block, kept.min(size));
        rattle_dealloc(block);
    }
    taken
}

/// # Safety
///
/// The block comes from these functions, and is not used again.
#[no_mangle]
unsafe extern "C" fn rattle_dealloc(block: *mut u8) {
    let whole = block.sub(HEAD);
    if let Some(layout) = layout(whole.cast::<usize>().read()) {
        wipe_from(whole, layout.size());
        dealloc(whole, layout);
    }
}
