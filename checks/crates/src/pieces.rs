//! Runs the pieces of code in the READMEs (`library_use`).

use apdu_core::Header;
use library_use::{apdus, card, line, objects, session, size_of_put, tap};
use object_card::{Aid, ObjectCard};
use std::alloc::{AllocGlobal, Global};
use std::process::Abort;
use t0_core::{CardEnd, End, Gather, HostEnd, Plans};
use tlv_core::{ObjectTag, Tag};

/// An FCI template that contains an application identifier (ISO/IEC 7816-4, 5.3.3).
const FCI: [u8; 11] = [
    0x6F, 0x09, 0x84, 0x07, 0xA0, 0x00, 0x00, 0x00, 0x03, 0x10, 0x10,
];

/// The identifier of the application.
const AID: [u8; 7] = [0xA0, 0x00, 0x00, 0x00, 0x03, 0x10, 0x10];

/// SELECT by a whole identifier.
const SELECT: Header = Header {
    cla: 0x00,
    ins: 0xA4,
    p1: 0x04,
    p2: 0x00,
};

/// The characters of a GET DATA to which the card responds with `6C06`.
const TRACE: [(End, u8); 7] = [
    (End::Terminal, 0x00),
    (End::Terminal, 0xCA),
    (End::Terminal, 0x5F),
    (End::Terminal, 0x20),
    (End::Terminal, 0x00),
    (End::Card, 0x6C),
    (End::Card, 0x06),
];

fn aid(rt: &impl Abort) -> Aid {
    Aid::new(&AID).expect(rt, "an identifier")
}

/// The tag of a cardholder's name.
fn name_tag(rt: &impl Abort) -> ObjectTag {
    let (tag, _) = Tag::read(&[0x5F, 0x20]).expect(rt, "a tag");
    ObjectTag::new(tag).expect(rt, "an address")
}

fn end(rt: &(impl Abort + AllocGlobal)) -> CardEnd<ObjectCard> {
    card::card(rt.alloc(), aid(rt), name_tag(rt)).expect(rt, "a card")
}

#[test]
fn objects_are_listed(rt: HostRuntime) {
    let text = objects::listed(rt.alloc(), &FCI).expect(&rt, "objects");
    assert!(&rt; text.as_str() == "84 A0000000031010");
}

#[test]
fn a_put_is_written(rt: HostRuntime) {
    let size = size_of_put(rt.alloc(), &[0x42; 256]).expect(&rt, "memory");
    assert!(&rt; size == 266);
}

#[test]
fn a_tpdu_is_passed(rt: HostRuntime) {
    let mut gather = Gather::with_room(rt.alloc(), 256).expect(&rt, "memory");
    let terminal = HostEnd::sending(SELECT, &AID);
    let mut plans = Plans::<Global>::over(&[]);
    let status = line::talk(terminal, &mut end(&rt), &mut plans, &mut gather);
    let status = status.expect(&rt, "a status");
    assert!(&rt; (status.sw1(), status.sw2()) == (0x61, 0x0B));
}

#[test]
fn a_trace_is_followed(rt: HostRuntime) {
    let (tpdus, last) = tap::followed(&TRACE).expect(&rt, "a dialogue");
    let last = last.expect(&rt, "a status");
    assert!(&rt; (tpdus, last.sw1(), last.sw2()) == (1, 0x6C, 0x06));
}

#[test]
fn a_session_has_answers(rt: HostRuntime) {
    let answers = session::carry_out(rt.alloc(), end(&rt), aid(&rt), name_tag(&rt));
    let answers = answers.expect(&rt, "memory");
    let wanted: [&[u8]; 2] = [&FCI, b"\x5F\x20\x03JOE"];
    assert!(&rt; answers.len() == wanted.len());
    for (at, data) in wanted.iter().enumerate() {
        let answer = answers.get(at).expect(&rt, "an answer");
        assert!(&rt; answer.status().is_ok() && answer.data() == *data);
    }
}

#[test]
fn whole_commands_select(rt: HostRuntime) {
    let answer = apdus::select(rt.alloc(), &mut end(&rt), &aid(&rt)).expect(&rt, "an answer");
    assert!(&rt; answer.status().is_ok() && answer.data() == FCI.as_slice());
}
