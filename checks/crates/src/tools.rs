//! What several modules of tests need: heaps that refuse memory, long values, tags, a line.

use linked_list_allocator::LocalHeap;
use std::alloc::{AllocGlobal, Global};
use std::process::Abort;
use t1_core::{Fate, Fates, Line};
use tlv_core::{ObjectTag, Tag};

/// How often a test calls what may give up after some calls.
pub const CALLS: usize = 5_100;

/// Calls `serves` with heaps of `first` bytes, and of `step` more each time, until it succeeds. It
/// must fail in the first.
pub fn serves_after_refusals(
    rt: &(impl Abort + AllocGlobal),
    first: usize,
    step: usize,
    mut serves: impl FnMut(&LocalHeap) -> bool,
) {
    for size in (first..first + 2_000 * step).step_by(step) {
        let heap = LocalHeap::new(rt.alloc(), size).expect(rt, "memory");
        if serves(&heap) {
            assert!(rt; size > first, "the first heap was not too small");
            return;
        }
    }
    panic!(rt; "no heap was large enough");
}

/// Allocates what is free of the first `size` bytes of a heap.
pub fn set_aside<'a>(rt: &impl Abort, heap: &'a LocalHeap, size: usize) -> Vec<u8, &'a LocalHeap> {
    Vec::with_capacity(heap, size - heap.used()).expect(rt, "memory")
}

/// This number of bytes.
pub fn long(rt: &(impl Abort + AllocGlobal), size: usize) -> Vec<u8> {
    vec![in rt.alloc(); 0x41; size].expect(rt, "memory")
}

/// The address of `DF01`, `DF02` and so on, up to `DF7F`.
pub fn numbered(rt: &impl Abort, number: usize) -> ObjectTag {
    let (tag, _) = Tag::read(&[0xDF, number as u8]).expect(rt, "a tag");
    ObjectTag::new(tag).expect(rt, "an address")
}

/// A line on which each block arrives.
#[derive(Drop)]
pub struct Quiet {
    passed: Vec<Fates>,
}

impl Quiet {
    pub fn new(alloc: Global) -> Quiet {
        Quiet {
            passed: Vec::new(alloc),
        }
    }
}

impl Line for Quiet {
    // Ghost members must be there. Nothing proves this one.
    ghost passed = { λ e. e.passed.items };

    fn next(&mut self) -> Fates {
        Fates {
            down: Fate::Delivers,
            up: Fate::Delivers,
        }
    }
}

/// A line that delivers both blocks of each second exchange. Those between have each pair of fates
/// in turn, so 16 tries suffice.
#[derive(Drop)]
pub struct Lossy {
    passed: Vec<Fates>,
    /// The number of exchanges so far.
    pub count: usize,
}

impl Lossy {
    pub fn new(alloc: Global) -> Lossy {
        Lossy {
            passed: Vec::new(alloc),
            count: 0,
        }
    }
}

impl Line for Lossy {
    // Ghost members must be there. Nothing proves this one.
    ghost passed = { λ e. e.passed.items };

    fn next(&mut self) -> Fates {
        let fates = [Fate::Delivers, Fate::Damages, Fate::Loses];
        let pair = if self.count % 2 == 0 {
            0
        } else {
            self.count / 2 % 9
        };
        self.count += 1;
        Fates {
            down: fates[pair / 3],
            up: fates[pair % 3],
        }
    }
}
