//! What allocates in `tlv_core`: memory that is there, or is refused.

use crate::tools::{long, serves_after_refusals, set_aside};
use std::alloc::{AllocGlobal, Global};
use std::process::Abort;
use tlv_core::{BuildFault, Forest, ReadFault, Tag, Tree};

fn tag(rt: &impl Abort, byte: u8) -> Tag {
    Tag::read(&[byte]).expect(rt, "a tag").0
}

/// Adds a primitive of this size.
fn push(rt: &(impl Abort + AllocGlobal), forest: &mut Forest<Global>, size: usize) {
    let added = forest.push_primitive(tag(rt, 0x50), long(rt, size));
    assert!(rt; added.is_ok(), "{size} bytes");
}

/// Adds a template.
fn push_template(rt: &impl Abort, forest: &mut Forest<Global>, children: Forest<Global>) {
    assert!(rt; forest.push_template(tag(rt, 0x70), children).is_ok());
}

/// The forest is written, and that is read.
fn is_written_and_read(rt: &(impl Abort + AllocGlobal), forest: &Forest<Global>) {
    let bytes = forest.write().expect(rt, "memory");
    let read = Tree::read(rt.alloc(), &bytes).expect(rt, "memory");
    assert!(rt; read.write().expect(rt, "memory") == bytes);
}

#[test]
fn values_of_each_size(rt: HostRuntime) {
    let mut forest = Forest::new(rt.alloc());
    for size in &[0, 4, 127, 128, 200, 255, 256, 300, 5_000, 32_768, 65_535] {
        push(&rt, &mut forest, *size);
        is_written_and_read(&rt, &forest);
    }
}

/// Templates inside one another, up to level 16.
#[test]
fn templates_at_each_level(rt: HostRuntime) {
    let mut forest = Forest::new(rt.alloc());
    for _ in 0..16 {
        let mut outer = Forest::new(rt.alloc());
        push_template(&rt, &mut outer, forest);
        is_written_and_read(&rt, &outer);
        forest = outer;
    }
}

/// Thousands of objects are 65,535 bytes, the longest value of a template: primitives of 3 bytes,
/// or templates of 5.
#[test]
fn templates_full_of_objects(rt: HostRuntime) {
    for (objects, are_templates) in &[(21_845, false), (13_107, true)] {
        let mut forest = Forest::new(rt.alloc());
        for _ in 0..*objects {
            let mut object = Forest::new(rt.alloc());
            push(&rt, &mut object, 1);
            if *are_templates {
                push_template(&rt, &mut forest, object);
            } else {
                push(&rt, &mut forest, 1);
            }
        }
        is_written_and_read(&rt, &forest);
        let mut outer = Forest::new(rt.alloc());
        push_template(&rt, &mut outer, forest);
        is_written_and_read(&rt, &outer);
    }
}

/// A primitive in a template, and ten primitives: their list grows.
const GROWING: &[u8] = b"\x70\x03\x50\x01\x41\x50\x01\x41\x50\x01\x41\x50\x01\x41\x50\x01\x41\
      \x50\x01\x41\x50\x01\x41\x50\x01\x41\x50\x01\x41\x50\x01\x41\x50\x01\x41";

#[test]
fn each_request_is_refused(rt: HostRuntime) {
    serves_after_refusals(&rt, 0, 16, |heap| {
        let read = Tree::read(heap, GROWING);
        assert!(&rt; matches!(read, Ok(_) | Err(ReadFault::OutOfMemory)));
        read.is_ok()
    });
    serves_after_refusals(&rt, 2_048, 16, |heap| {
        let forest = Tree::read(heap, &GROWING[..5]).expect(&rt, "memory");
        let _aside = set_aside(&rt, heap, 2_048);
        forest.write().is_ok()
    });
}

/// A forest without memory for one more object takes it once there is.
#[test]
fn each_growth_is_refused(rt: HostRuntime) {
    for is_template in &[false, true] {
        serves_after_refusals(&rt, 0, 16, |heap| {
            let mut forest = Forest::new(heap);
            for _ in 0..64 {
                let added = if *is_template {
                    forest.push_template(tag(&rt, 0x70), Forest::new(heap))
                } else {
                    forest.push_primitive(tag(&rt, 0x50), Vec::new(heap))
                };
                if added.is_err() {
                    assert!(&rt; added == Err(BuildFault::OutOfMemory));
                    return false;
                }
            }
            true
        });
    }
}
