//! Tests a terminal with a card, over transports of whole TPDUs and of commands, and an operation's
//! guard.

use galliumtoad::{whole_commands, By, Level, ANSWER_LIMIT};
use galliumtoad::{Card, CardBuilder, Error, Operation, RunError, Status, Terminal, Transport};
use galliumtoad::{DataSent, InProgress};
use std::convert::Infallible;
use std::panic::{catch_unwind, resume_unwind, AssertUnwindSafe};

const AID: [u8; 7] = [0xA0, 0x00, 0x00, 0x00, 0x03, 0x10, 0x10];

fn card() -> Card {
    let mut builder = CardBuilder::new().expect("memory");
    builder.app(&AID).expect("an application");
    builder.object(0x5F20, b"JOE").expect("an object");
    builder.locked(0x50, b"VISA").expect("an object");
    builder.finish().expect("a card")
}

/// A response of 257 bytes fits no command, even if the reader has room for it. Nothing is sent
/// again.
#[test]
fn a_reader_that_brings_too_much_is_a_fault_at_each_level() {
    let get = Operation::Send(&[0x00, 0xCA, 0x5F, 0x20, 0x02]);
    for level in [Level::Tpdu, Level::Apdu] {
        for (count, wanted) in [
            (1, Err(Error::NoStatus)),
            (4, Ok(vec![0x90, 0x90])),
            (5, Err(Error::TooMany)),
            (259, Err(Error::TooMany)),
            (usize::MAX, Err(Error::TooMany)),
        ] {
            let (mut terminal, mut times) = (Terminal::new().expect("memory"), 0);
            let mut reader = |_: &[u8], answer: &mut [u8]| {
                answer.fill(0x90);
                times += 1;
                Ok::<usize, Infallible>(count)
            };
            let found = match level {
                Level::Tpdu => terminal.run(&mut reader, get),
                _ => terminal.run(&mut whole_commands(&mut reader), get),
            };
            let found = (found.map(|it| it.data), times);
            assert_eq!(found, (wanted.map_err(RunError::Terminal), 1));
            assert_eq!(terminal.begin(get), Ok(()), "the next operation may begin");
        }
    }
}

#[test]
fn a_transport_that_fails_is_told_and_nothing_is_sent_again() {
    let mut times = 0;
    let mut reader = |_: &[u8], _: &mut [u8]| {
        times += 1;
        Err("the card was removed")
    };
    let mut terminal = Terminal::new().expect("memory");
    let found = terminal.run(&mut reader, Operation::Select(&AID));
    assert_eq!(found, Err(RunError::Transport("the card was removed")));
    assert_eq!(times, 1);
    assert_eq!(terminal.answer(), Err(Error::State));
    let answer = terminal.run(&mut card(), Operation::Select(&AID));
    assert_eq!(answer.expect("an answer").status, 0x9000);
}

#[test]
fn what_is_no_operation_is_not_begun() {
    let mut times = 0;
    let mut reader = |_: &[u8], _: &mut [u8]| {
        times += 1;
        Ok::<usize, Infallible>(0)
    };
    let mut terminal = Terminal::new().expect("memory");
    let found = terminal.run(&mut reader, Operation::Get(0x5F));
    assert_eq!(found, Err(RunError::Terminal(Error::Argument)));
    terminal.begin(Operation::Get(0x5F20)).expect("begun");
    let found = terminal.run(&mut reader, Operation::Get(0x50));
    assert_eq!(found, Err(RunError::Terminal(Error::State)));
    let tpdu = terminal.tpdu().expect("memory").expect("due");
    assert_eq!(tpdu.bytes, [0x00, 0xCA, 0x5F, 0x20, 0x00]);
    assert_eq!(times, 0);
}

/// Runs a select over a transport that this function owns. Returns its level.
fn owned<T: Transport>(mut transport: T) -> Level
where
    T::Error: std::fmt::Debug,
{
    let mut terminal = Terminal::new().expect("memory");
    let answer = terminal.run(&mut transport, Operation::Select(&AID));
    assert_eq!(answer.expect("an answer").status, 0x9000);
    transport.level()
}

/// A card under its plans, and closures, also behind pointers. Each has its level, and a command
/// its Le.
#[test]
fn transports_may_be_of_any_kind() {
    let (mut card, mut room) = (card(), [0; 2]);
    let select = b"\x00\xA4\x04\x00\x07\xA0\x00\x00\x00\x03\x10\x10\x00";
    card.plan("", 5).expect("a plan");
    assert_eq!(card.transmit(&select[..12], &mut room), Ok(2));
    assert_eq!(room, [0x61, 0x05]);
    assert_eq!(card.transmit(&[0x00, 0xCA, 0x00, 0x50], &mut room), Ok(2));
    assert_eq!(room, [0x6C, 0x06]);
    assert_eq!(card.transmit(&[0x00], &mut room), Err(Error::NoTpdu));
    assert_eq!(owned(By(&mut card)), Level::Tpdu);
    let by_trait: &mut dyn Transport<Error = Error> = &mut card;
    assert_eq!(owned(By(by_trait)), Level::Tpdu);
    let closure = |tpdu: &[u8], answer: &mut [u8]| card.tpdu_into(tpdu, answer);
    assert_eq!(owned(closure), Level::Tpdu);
    let mut seen = Vec::new();
    let mut commands = whole_commands(|command, answer| {
        seen.push(command.to_vec());
        card.apdu_into(command, answer)
    });
    assert_eq!(owned(By(&mut commands)), Level::Apdu);
    let boxed: Box<dyn Transport<Error = Error> + '_> = Box::new(commands);
    assert_eq!(owned(By(boxed)), Level::Apdu);
    assert_eq!(seen, [select, select]);
    // some have no size, and errors of their own
    type Closure = dyn FnMut(&[u8], &mut [u8]) -> Result<usize, String>;
    let mut closure: Box<Closure> = Box::new(|_: &[u8], _: &mut [u8]| Err("gone".to_owned()));
    let mut terminal = Terminal::new().expect("memory");
    let gone = Err(RunError::Transport("gone".to_owned()));
    assert_eq!(terminal.run(&mut *closure, Operation::Get(0x50)), gone);
    assert_eq!(terminal.run(&mut closure, Operation::Get(0x50)), gone);
}

#[test]
fn a_panic_in_a_transport_leaves_the_terminal_reset() {
    let mut terminal = Terminal::new().expect("memory");
    let mut times = 0;
    let mut reader = |_: &[u8], answer: &mut [u8]| -> Result<usize, Infallible> {
        times += 1;
        answer[..2].copy_from_slice(&[0x90, 0x00]);
        match times {
            2 => resume_unwind(Box::new("pulled out")),
            _ => Ok(2),
        }
    };
    let put = Operation::Put(0x5F20, &[0x41; 300]);
    let run = AssertUnwindSafe(|| terminal.run(&mut reader, put).is_ok());
    assert!(catch_unwind(run).is_err());
    assert_eq!(times, 2);
    assert_eq!(terminal.turn(), Err(Error::State));
    assert_eq!(terminal.tpdu(), Ok(None));
    let answer = terminal.run(&mut card(), Operation::Select(&AID));
    assert_eq!(answer.expect("an answer").status, 0x9000);
}

/// A reader claims a status and writes zeros. The answer has no byte of an earlier one.
#[test]
fn a_transport_that_writes_less_than_it_claims_delivers_zeros() {
    let (mut terminal, mut times) = (Terminal::new().expect("memory"), 0);
    let mut reader = |_: &[u8], answer: &mut [u8]| {
        times += 1;
        assert_eq!(answer, [0; ANSWER_LIMIT]);
        answer[..2].copy_from_slice(if times == 1 { &[0x6C, 0x06] } else { &[0, 0] });
        Ok::<usize, Infallible>(2)
    };
    let found = terminal.run(&mut reader, Operation::Get(0x5F20));
    assert_eq!(found, Err(RunError::Terminal(Error::NoStatus)));
    assert_eq!(times, 2);
}

/// An answer takes no more memory than it needs, and a caller's buffer must have room for it.
#[test]
fn answers_take_what_they_need() {
    let mut card = card();
    let mut terminal = Terminal::new().expect("memory");
    assert_eq!(terminal.answer_into(&mut []).err(), Some(Error::State));
    let put = terminal.run(&mut card, Operation::Select(&AID));
    assert_eq!(put.expect("an answer").data.capacity(), 11);
    let answer = terminal.run(&mut card, Operation::Get(0x5F20));
    assert_eq!(answer.expect("an answer").data.capacity(), 6);
    let mut room = [0xEE; 8];
    let short = terminal.answer_into(&mut room[..5]).err();
    assert_eq!((short, room), (Some(Error::Buffer), [0xEE; 8]));
    let copied = terminal.answer_into(&mut room).expect("room");
    assert_eq!((copied.status, copied.count), (Status(0x9000), 6));
    assert_eq!(&room, b"\x5F\x20\x03JOE\xEE\xEE");
    let put = terminal.run(&mut card, Operation::Put(0x50, b""));
    assert_eq!(put.expect("an answer").data.capacity(), 0);
    let copied = terminal.answer_into(&mut []).expect("no data");
    assert_eq!((copied.status, copied.count), (Status(0x6982), 0));
    terminal.begin(Operation::Put(0x50, b"")).expect("begun");
    let tpdu = terminal.tpdu().expect("memory").expect("due");
    assert_eq!(tpdu.bytes.capacity(), 4);
    let mut room = [0xEE; 260];
    let due = terminal.tpdu_into(&mut room).expect("room").expect("due");
    assert_eq!((due.count, due.most), (4, 0));
    assert_eq!(room[..5], [0x00, 0xDA, 0x00, 0x50, 0xEE]);
    terminal.answered(&[0x90, 0x00]).expect("an answer");
    assert_eq!(terminal.tpdu_into(&mut room), Ok(None));
    let answer = card.tpdu(&[0x00, 0xCA, 0x5F, 0x20, 0x06]);
    assert_eq!(answer.expect("an answer").capacity(), ANSWER_LIMIT);
}

/// As a future drops it that is cancelled.
#[test]
fn a_guard_is_dropped_at_any_point() {
    let mut terminal = Terminal::new().expect("memory");
    let get = Operation::Get(0x5F20);
    drop(terminal.begin_guarded(get).expect("begun"));
    assert_eq!(terminal.data_sent(), None);
    // not ended, and failed
    let passing: InProgress<'_> = terminal.begin_guarded(get).expect("begun");
    assert_eq!(passing.finish(), Err(Error::State));
    assert_eq!(terminal.data_sent(), None);
    let mut passing = terminal.begin_guarded(get).expect("begun");
    assert_eq!(passing.answered(b"\x61\x01"), Ok(()));
    assert_eq!(passing.answered(b"\x61\x01"), Err(Error::Stalled));
    assert_eq!(passing.finish(), Err(Error::State));
    assert_eq!(terminal.data_sent(), None);
    // one at a time
    let mut passing = terminal.begin_guarded(get).expect("begun");
    assert_eq!(passing.begin_guarded(get).err(), Some(Error::State));
    assert_eq!(passing.data_sent(), Some(DataSent::All), "as it was");
    passing.answered(b"\x6A\x88").expect("an answer");
    assert_eq!(passing.finish().expect("an answer").status, 0x6A88);
    // the terminal keeps the answer of a finished one
    assert_eq!(terminal.answer().expect("the same").status, 0x6A88);
}
