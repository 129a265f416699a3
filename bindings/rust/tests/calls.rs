//! Tests objects, the tables and plans of a card, and the buffers and levels of an exchange, by the
//! rules of BER-TLV and of the card.

use galliumtoad::{encode, find, DataSent, Exchange, ObjectsError, Pdu, Stop, Terminal, Turn};
use galliumtoad::{CardBuilder, Error, Objects, Operation, Reason, Session};
use std::error::Error as _;

const AID: [u8; 7] = [0xA0, 0x00, 0x00, 0x00, 0x03, 0x10, 0x10];

fn builder() -> CardBuilder {
    let mut builder = CardBuilder::new().expect("memory");
    builder.app(&AID).expect("an application");
    builder.object(0x5F20, b"JOE").expect("an object");
    builder.locked(0x50, b"VISA").expect("an object");
    builder
}

/// The place and the reason of a fault in the bytes.
fn placed(fault: ObjectsError) -> Option<(usize, Reason)> {
    match fault {
        ObjectsError::Fault { place, reason, .. } => Some((place, reason)),
        _ => None,
    }
}

#[test]
fn objects_are_listed_with_their_places() {
    let bytes = [0x00, 0x6F, 0x04, 0x84, 0x02, 0xA0, 0x00, 0x50, 0x00];
    let seen: Vec<_> = Objects::over(&bytes)
        .expect("objects")
        .map(|it| {
            let place = (it.place, it.size);
            (it.tag, it.level, it.is_constructed, place, it.value)
        })
        .collect();
    assert_eq!(
        seen,
        [
            (0x6F, 1, true, (1, 6), &bytes[3..7]),
            (0x84, 2, false, (3, 4), &bytes[5..7]),
            (0x50, 1, false, (7, 2), &[][..]),
        ]
    );
    let fault = Objects::over(&bytes[..6]).expect_err("a fault");
    assert_eq!(placed(fault), Some((1, Reason::ValueCut)));
    assert_eq!(fault.to_string(), "value cut at 1");
    assert_eq!(Objects::over(&[]).expect("no objects").count(), 0);
    let many = b"\x50\x01A".repeat(2_730);
    assert_eq!(Objects::over(&many).expect("objects").count(), 2_730);
}

#[test]
fn objects_are_found_by_path() {
    let list = b"\x70\x03\x50\x01\x41\x70\x03\x51\x01\x42\x70\x03\x50\x01\x43";
    let found_at = |path: &[u32]| {
        let found = find(list, path).expect("objects");
        found.map(|it| (it.tag, it.level, it.place, it.size, it.value))
    };
    assert_eq!(found_at(&[0x70, 0x51]), Some((0x51, 2, 7, 3, &b"\x42"[..])));
    assert_eq!(found_at(&[0x70, 0x50]), Some((0x50, 2, 2, 3, &b"\x41"[..])));
    assert_eq!(found_at(&[0x70]), Some((0x70, 1, 0, 5, &list[2..5])));
    assert_eq!(found_at(&[0x50]), None);
    assert_eq!(found_at(&[]), None);
    assert_eq!(find(&[], &[0x50]), Ok(None));
    let no_tag = find(list, &[0x70, 0x5F]).expect_err("a fault");
    assert_eq!(no_tag, ObjectsError::NoTag);
    assert_eq!(no_tag.to_string(), "not a tag");
    let fault = find(&[0x50, 0x05, 0x41], &[0x50]).expect_err("a fault");
    assert_eq!(placed(fault), Some((0, Reason::ValueCut)));
    assert_eq!(fault.to_string(), "value cut at 0");
    assert!(fault.source().is_none());
    let behind = find(b"\x50\x00\x9F\x80\x00", &[0x50]);
    assert_eq!(behind.expect_err("a fault").to_string(), "tag form at 2");
}

/// Returns the tag, the level, the place and the value of each object.
fn parts<'a>(
    objects: impl Iterator<Item = galliumtoad::Object<'a>>,
) -> Vec<(u32, u8, usize, &'a [u8])> {
    let of = |it: galliumtoad::Object<'a>| (it.tag, it.level, it.place, it.value);
    objects.map(of).collect()
}

/// `70 { 50 "A", 61 { 4F "B" }, 50 "C" }`, after padding, and then `50 "D"`.
const NESTED: &[u8] = b"\x00\x70\x0B\x50\x01A\x61\x03\x4F\x01B\x50\x01C\x50\x01D";

#[test]
fn objects_have_children() {
    let objects: Vec<_> = Objects::over(NESTED).expect("objects").collect();
    let children = |at: usize| parts(objects[at].children().expect("memory"));
    assert_eq!(
        children(0),
        [
            (0x50, 2, 3, &b"A"[..]),
            (0x61, 2, 6, b"\x4F\x01B"),
            (0x50, 2, 11, b"C"),
        ]
    );
    assert_eq!(objects[2].tag, 0x61);
    assert_eq!(children(2), [(0x4F, 3, 8, &b"B"[..])]);
    // each child is as in the list of all
    let all = parts(objects.iter().copied());
    assert!(children(0)
        .iter()
        .chain(&children(2))
        .all(|it| all.contains(it)));
    // a value that looks like an object is one only in a template
    let flat = Objects::over(b"\x50\x02\x51\x00").expect("objects").next();
    assert_eq!(flat.expect("one").children().expect("memory").count(), 0);
    let empty = Objects::over(b"\x70\x00").expect("objects").next();
    assert_eq!(empty.expect("one").children().expect("memory").count(), 0);
}

#[test]
fn objects_may_be_gone_through_twice() {
    let mut objects = Objects::over(NESTED).expect("objects");
    let first = objects.next().expect("one");
    let mut tags = Vec::new();
    for object in &objects {
        tags.push(object.tag);
    }
    assert_eq!(tags, [0x50, 0x61, 0x4F, 0x50, 0x50]);
    assert_eq!(parts(objects.iter()), parts(objects.clone()));
    assert_eq!((first.tag, objects.len()), (0x70, 5));
}

/// Heads by BER (ISO/IEC 8825-1, 8.1.3): the shortest length.
#[test]
fn objects_are_written() {
    assert_eq!(encode(0x50, &[]), Ok(b"\x50\x00".to_vec()));
    let name = encode(0x5F20, &[b"JO", b"", b"E"]).expect("an object");
    assert_eq!(name, b"\x5F\x20\x03JOE");
    let template = encode(0x70, &[&name, b"\x50\x00"]).expect("a template");
    assert_eq!(template, b"\x70\x08\x5F\x20\x03JOE\x50\x00");
    for (length, wanted) in [
        (128, &b"\x9F\x81\x01\x81\x80"[..]),
        (65_535, b"\x9F\x81\x01\x82\xFF\xFF"),
    ] {
        let (half, value) = (length / 2, vec![0xA5; length]);
        let object = encode(0x9F8101, &[&value[..half], &value[half..]]).expect("an object");
        assert_eq!(object, [wanted, &value].concat());
    }
    let long = [0; 65_535];
    assert_eq!(encode(0x50, &[&long, b"A"]), Err(ObjectsError::TooLong));
    assert_eq!(encode(0x70, &[&long, b"A"]), Err(ObjectsError::TooLong));
    assert_eq!(ObjectsError::TooLong.to_string(), "value too long");
    assert_eq!(encode(0x5F, &[b"A"]), Err(ObjectsError::NoTag));
    // the parts of a template are objects
    let fault = encode(0x70, &[b"\x50\x02A"]).expect_err("a fault");
    assert_eq!(placed(fault), Some((2, Reason::ValueCut)));
    assert!(encode(0x50, &[b"\x50\x02A"]).is_ok());
}

#[test]
fn a_session_that_nobody_listens_to() {
    let card = builder().finish().expect("a card");
    let mut session = Session::start(card).expect("a session");
    assert_eq!(session.heard(), Err(Error::State));
    session.listen().expect("somebody listens");
    assert_eq!(session.heard(), Ok(Vec::new()));
    assert_eq!(session.is_idle(), Ok(true));
    assert_eq!(session.run(Operation::Send(&[0x00])), Err(Error::TooShort));
    let selected = session.select(&AID).expect("an answer");
    assert_eq!(selected.status, 0x9000);
    // a chain is pending
    let begun = session.send(b"\x10\xDA\x5F\x20\x01A");
    assert_eq!(begun.expect("an answer").status, 0x9000);
    assert_eq!(session.is_idle(), Ok(false));
}

/// A NULL before the procedure byte.
#[test]
fn a_card_has_plans() {
    let mut card = builder().finish().expect("a card");
    card.plan("n", 256).expect("a plan");
    card.receive_bytes(b"\x00\xA4\x04\x00\x07")
        .expect("listens");
    let bytes = [card.turn(), card.turn(), card.turn()].map(|it| it.expect("a card"));
    assert_eq!(bytes, [Turn::Sends(0x60), Turn::Sends(0xA4), Turn::Listens]);
}

/// An exchange goes by TPDUs, or by commands with their Le.
#[test]
fn an_exchange_has_a_level() {
    let command = b"\x00\xA4\x04\x00\x05AAAAA\x00";
    let mut exchange = Exchange::start(command).expect("memory");
    let due = |it: Option<Pdu>| it.expect("due").bytes.clone();
    assert_eq!(exchange.apdu().map(due), Ok(command.to_vec()));
    assert_eq!(exchange.tpdu().map(due), Ok(command[..10].to_vec()));
    assert_eq!(exchange.responded(b"\x90\x00"), Ok(()));
    assert_eq!(exchange.tpdu(), Err(Error::State));
}

/// Passes buffers between an end and a card, the first byte alone, until the end is done.
macro_rules! passes {
    ($end:expr, $card:expr) => {
        let mut room = [0; 20];
        loop {
            let sent = $end.send_bytes(&mut room).expect("an end");
            if sent.stop == Stop::Done {
                break;
            }
            $card.receive_bytes(&room[..sent.count]).expect("listens");
            let sent = $card.send_bytes(&mut room).expect("a card");
            let (first, rest) = room[..sent.count].split_first().expect("an answer");
            $end.take(*first).expect("listens");
            $end.receive_bytes(rest).expect("listens");
        }
    };
}

#[test]
fn an_exchange_and_a_terminal_go_by_buffers() {
    let mut card = builder().finish().expect("a card");
    let mut terminal = Terminal::new().expect("memory");
    terminal.begin(Operation::Select(&AID)).expect("begun");
    passes!(terminal, card);
    assert_eq!(terminal.data_sent(), Some(DataSent::All));
    assert_eq!(terminal.answer().expect("an answer").data[4..], AID);
    let mut exchange = Exchange::start(b"\x00\xDA\x5F\x20\x03ANN").expect("memory");
    passes!(exchange, card);
    assert_eq!(exchange.data_sent(), DataSent::All);
    assert_eq!(card.entries(0).next().expect("an object").value, b"ANN");
}
