//! Tests of `object_card`: memory that is there, or is refused, and the limits of the profile.

use crate::tools::{CALLS, long, numbered, serves_after_refusals};
use apdu_core::{Command, Header, pieces};
use object_card::{
    APPLICATION_LIMIT, Aid, BuilderFault, CardBuilder, ENTRY_LIMIT, HEAD_LIMIT, ObjectCard,
    RESPONSE_LIMIT, VALUE_LIMIT,
};
use std::alloc::{AllocGlobal, Allocator, Global};
use std::process::Abort;
use t0_core::{CardEnd, Gather, Plans};

/// The definitions import the limits, so nearly all proofs would hold for other numbers too.
#[test]
fn limits_of_the_profile(rt: HostRuntime) {
    let limits = [
        APPLICATION_LIMIT,
        ENTRY_LIMIT,
        VALUE_LIMIT,
        HEAD_LIMIT,
        RESPONSE_LIMIT,
    ];
    assert!(&rt; limits == [8, 64, 8_192, 5, 16_384]);
}

/// The identifier with this last byte.
fn aid(rt: &impl Abort, last: u8) -> Aid {
    Aid::new(&[0xA0, 0x00, 0x00, 0x00, last]).expect(rt, "an identifier")
}

/// The size of the value that a test puts with this call: all up to 255, and some to the limit.
fn size(call: usize) -> usize {
    if call % 500 == 0 {
        VALUE_LIMIT - call / 500
    } else {
        call % 256
    }
}

/// Makes a card of as many applications and objects as it may have. Each value of the first
/// application is replaced again and again.
fn is_full(rt: &(impl Abort + AllocGlobal), tries: bool) {
    let longest = long(rt, VALUE_LIMIT);
    let mut builder = CardBuilder::new(rt.alloc());
    for last in 0..8 {
        assert!(rt; builder.app(aid(rt, last)).is_ok(), "application {last}");
        for call in 0..if last == 0 { CALLS } else { 64 } {
            assert!(rt; builder.app(aid(rt, 0)) == Err(BuilderFault::Twice));
            let (tag, value) = (numbered(rt, call % 64 + 1), &longest[..size(call)]);
            assert!(rt; builder.locked(tag, value).is_ok(), "object {call}");
            assert!(rt; builder.object(tag, value).is_ok(), "object {call}");
        }
    }
    let card = if tries {
        builder.try_finish().ok()
    } else {
        builder.finish().ok()
    };
    assert!(rt; card.expect(rt, "memory").apps().count() == 8);
}

#[test]
fn full_cards_are_built(rt: HostRuntime) {
    is_full(&rt, false);
    is_full(&rt, true);
}

/// `finish` allocates the buffer of a chain, and nothing else.
#[test]
fn a_card_is_finished(rt: HostRuntime) {
    assert!(&rt; CardBuilder::new(rt.alloc()).finish().is_ok());
    for tries in &[false, true] {
        serves_after_refusals(&rt, 0, 64, |heap| {
            let mut builder = CardBuilder::new(heap);
            if builder.app(aid(&rt, 0)).is_err() {
                return false;
            }
            let used = heap.used();
            let finished = if *tries {
                builder.try_finish().ok()
            } else {
                builder.finish().ok()
            };
            assert!(&rt; finished.is_none() || heap.used() <= used + VALUE_LIMIT);
            finished.is_some()
        });
    }
}

/// Each growth is refused in turn, and the next call succeeds if there is memory again.
#[test]
fn a_builder_without_memory(rt: HostRuntime) {
    for is_locked in &[false, true] {
        serves_after_refusals(&rt, 0, 64, |heap| {
            let mut builder = CardBuilder::new(heap);
            for last in 0..8 {
                if builder.app(aid(&rt, last)) == Err(BuilderFault::OutOfMemory) {
                    return false;
                }
            }
            for number in 1..=64 {
                let (tag, value) = (numbered(&rt, number), &[0x41; 64]);
                let added = if *is_locked {
                    builder.locked(tag, value)
                } else {
                    builder.object(tag, value)
                };
                if added == Err(BuilderFault::OutOfMemory) {
                    return false;
                }
                assert!(&rt; added.is_ok());
            }
            true
        });
    }
}

/// The status word of a command by whole TPDU.
fn status<A: Allocator + Copy>(
    rt: &(impl Abort + AllocGlobal),
    end: &mut CardEnd<ObjectCard<A>>,
    command: &Command<'_>,
) -> u16 {
    let mut tpdu = Vec::new(rt.alloc());
    command.write(&mut tpdu).expect(rt, "memory");
    let mut gather = Gather::without_room(rt.alloc());
    let mut plans = Plans::<Global>::over(&[]);
    let status = end.tpdu(&tpdu, &mut plans, &mut gather);
    status.expect(rt, "a status").word()
}

/// The end of a card with one application, which is selected.
fn selected<A: Allocator + Copy>(
    rt: &(impl Abort + AllocGlobal),
    mut builder: CardBuilder<A>,
) -> Option<CardEnd<ObjectCard<A>>> {
    builder.app(aid(rt, 0)).ok()?;
    let mut end = CardEnd::new(builder.finish().ok()?);
    let header = Header {
        cla: 0x00,
        ins: 0xA4,
        p1: 0x04,
        p2: 0x00,
    };
    let aid = aid(rt, 0);
    let select = Command::new(header, aid.bytes(), None).expect(rt, "a command");
    assert!(rt; status(rt, &mut end, &select) == 0x6109);
    Some(end)
}

/// Puts a value under this P1-P2. Returns the last status.
fn put<A: Allocator + Copy>(
    rt: &(impl Abort + AllocGlobal),
    end: &mut CardEnd<ObjectCard<A>>,
    (p1, p2): (u8, u8),
    value: &[u8],
) -> u16 {
    let header = Header {
        cla: 0x00,
        ins: 0xDA,
        p1,
        p2,
    };
    let mut last = 0;
    for command in pieces(header, value) {
        last = status(rt, end, &command);
    }
    last
}

#[test]
fn a_card_takes_thousands_of_puts(rt: HostRuntime) {
    let mut end = selected(&rt, CardBuilder::new(rt.alloc())).expect(&rt, "memory");
    for call in 0..CALLS {
        let address = numbered(&rt, call % 64 + 1).p1p2();
        let status = put(&rt, &mut end, address, &long(&rt, size(call)));
        assert!(&rt; status == 0x9000, "put {call}");
    }
}

/// Each growth is refused in turn: the status is `6581`. A template of no objects is still refused
/// for that, and a shorter value is stored.
#[test]
fn a_card_without_memory(rt: HostRuntime) {
    serves_after_refusals(&rt, 8_192, 64, |heap| {
        let Some(mut end) = selected(&rt, CardBuilder::new(heap)) else {
            return false;
        };
        for number in 1..=64 {
            let address = numbered(&rt, number).p1p2();
            match put(&rt, &mut end, address, &[0x41; 64]) {
                0x9000 => {}
                status => {
                    assert!(&rt; status == 0x6581);
                    assert!(&rt; put(&rt, &mut end, (0x00, 0x70), b"\x50") == 0x6A80);
                    let first = numbered(&rt, 1).p1p2();
                    assert!(&rt; number == 1 || put(&rt, &mut end, first, &[]) == 0x9000);
                    return false;
                }
            }
        }
        true
    });
}
