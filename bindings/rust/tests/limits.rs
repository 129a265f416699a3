//! Tests the full tables of a card and of a session, and the longest responses.

use galliumtoad::{CardBuilder, Edc, Error, Exchange, Operation, RunError, Session};
use galliumtoad::{T1Limits, Terminal, ANSWER_LIMIT, RESPONSE_LIMIT, T1};
use galliumtoad::{AID_LEAST, AID_LIMIT, APPS_LIMIT, ENTRIES_LIMIT, VALUE_LIMIT};
use std::convert::Infallible;

/// A pattern of bytes whose period is prime.
fn bytes(n: usize, from: usize) -> Vec<u8> {
    (from..from + n).map(|i| (i % 251) as u8).collect()
}

/// The identifiers have 5 to 16 bytes.
fn aid(app: usize) -> Vec<u8> {
    let mut aid = bytes([5, 16][app % 2], 1);
    aid[0] = 0xA0 + app as u8;
    aid
}

/// The objects of the last application: the most, and the first has the longest value.
fn objects() -> impl Iterator<Item = (u32, Vec<u8>, bool)> {
    let value = |at| bytes(if at == 0 { 8_192 } else { at - 1 }, at);
    (0..64).map(move |at| (0xDF01 + at as u32, value(at), at % 2 == 1))
}

/// A card with the most applications.
fn full_card() -> CardBuilder {
    let mut builder = CardBuilder::new().expect("memory");
    for app in 0..8 {
        builder.app(&aid(app)).expect("an application");
    }
    for (tag, value, is_locked) in objects() {
        let added = match is_locked {
            false => builder.object(tag, &value),
            true => builder.locked(tag, &value),
        };
        added.expect("an object");
    }
    builder
}

/// Each part of the tables comes. A value takes no more memory than it needs.
macro_rules! tells_all {
    ($of:expr) => {
        assert!($of.apps().eq((0..8).map(aid)));
        assert_eq!($of.place_of(&aid(7)), Some(7));
        assert_eq!($of.place_of(&aid(7)[..5]), None);
        let told = $of.entries(7).map(|it| {
            assert_eq!(it.value.capacity(), it.value.len());
            (it.tag, it.value, it.is_locked)
        });
        assert!(told.eq(objects()));
        assert_eq!($of.entries(6).count() + $of.entries(8).count(), 0);
    };
}

#[test]
fn a_card_and_a_session_tell_all_of_their_tables() {
    assert_eq!([AID_LEAST, AID_LIMIT, APPS_LIMIT], [5, 16, 8]);
    assert_eq!([ENTRIES_LIMIT, VALUE_LIMIT], [64, 8_192]);
    let mut builder = full_card();
    assert_eq!(builder.app(&aid(9)), Err(Error::TooManyApps));
    assert_eq!(builder.object(0x50, b""), Err(Error::TableFull));
    assert_eq!(builder.locked(0x50, b""), Err(Error::TableFull));
    let card = builder.finish().expect("a card");
    assert_eq!(card.selected(), None);
    tells_all!(card);
    let mut session = Session::start(card).expect("a session");
    assert_eq!(session.selected(), None);
    tells_all!(session);
    assert_eq!(session.select(&aid(7)).expect("one").status, 0x9000);
    assert_eq!(session.selected(), Some(aid(7)));
    session.reset().expect("a reset");
    assert_eq!(session.selected(), None);
    let card = session.end().expect("the card");
    tells_all!(card);
}

/// A reader whose card answers with this number of bytes, 256 at a time.
fn reader(mut left: usize) -> impl FnMut(&[u8], &mut [u8]) -> Result<usize, Infallible> {
    move |_, answer| {
        let n = left.min(256);
        left -= n;
        let status = if left > 0 { [0x61, 0x00] } else { [0x90, 0x00] };
        answer[n..n + 2].copy_from_slice(&status);
        Ok(n + 2)
    }
}

/// The number of bytes of an exchange's answer.
fn passed(mut exchange: Exchange, count: usize) -> Result<usize, Error> {
    let (mut reader, mut room) = (reader(count), [0; ANSWER_LIMIT]);
    while let Some(tpdu) = exchange.tpdu()? {
        let n = reader(&tpdu.bytes, &mut room).expect("an answer");
        exchange.answered(&room[..n])?;
    }
    exchange.answer().map(|it| it.data.len())
}

#[test]
fn responses_are_as_long_as_they_may_be() {
    let get = b"\x00\xCA\x5F\x20\x00";
    for limit in [0, 5, 300, RESPONSE_LIMIT] {
        for (count, wanted) in [(limit, Ok(limit)), (limit + 1, Err(Error::TooLong))] {
            let (exchange, terminal) = match limit {
                RESPONSE_LIMIT => (Exchange::start(get), Terminal::new()),
                _ => (
                    Exchange::start_within(get, limit),
                    Terminal::new_within(limit),
                ),
            };
            assert_eq!(passed(exchange.expect("memory"), count), wanted);
            let mut terminal = terminal.expect("memory");
            let found = terminal.run(&mut reader(count), Operation::Send(get));
            let found = found.map(|it| it.data.len());
            assert_eq!(found, wanted.map_err(RunError::Terminal));
        }
    }
    for limit in [RESPONSE_LIMIT + 1, usize::MAX] {
        let refused = Some(Error::Argument);
        assert_eq!(Exchange::start_within(get, limit).err(), refused);
        assert_eq!(Terminal::new_within(limit).err(), refused);
    }
}

#[test]
fn ends_at_t1_have_limits() {
    let limits = T1Limits::default();
    let numbers = (limits.tries, limits.extensions, limits.response);
    assert_eq!(numbers, (4, 1_000, ANSWER_LIMIT));
    assert!(T1::new(Edc::Lrc, 254, limits).is_ok());
    for (edc, ifsc) in [(Edc::Lrc, 255), (Edc::Crc, 254)] {
        assert_eq!(T1::new(edc, ifsc, limits).err(), Some(Error::Argument));
    }
}
