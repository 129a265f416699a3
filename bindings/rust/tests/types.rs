//! Tests the types alone: texts of statuses, the output of `Debug`, causes of errors, and the types
//! that threads may share.

use galliumtoad::{find, Atr, CardBuilder, Error, Exchange, Objects, Operation, Pps, Session};
use galliumtoad::{Answer, Entry, Level, Pdu, Refused, RunError, Status, Stop, Terminal, Turn};
use galliumtoad::{Application, Command, OwnCard, Response};
use std::error::Error as Cause;
use std::ffi::CString;
use std::fmt;
use std::hash::Hash;

const AID: [u8; 7] = [0xA0, 0x00, 0x00, 0x00, 0x03, 0x10, 0x10];

/// No byte of it is part of another number that is shown.
const SECRET: [u8; 3] = [0xB7, 0xC8, 0xD9];

fn session() -> Session {
    let mut builder = CardBuilder::new().expect("memory");
    builder.app(&AID).expect("an application");
    builder.object(0x5F20, &SECRET).expect("an object");
    builder.locked(0x50, b"").expect("an object");
    let card = builder.finish().expect("a card");
    let mut session = Session::start(card).expect("a session");
    assert_eq!(session.select(&AID).expect("an answer").status, 0x9000);
    session
}

#[test]
fn statuses_are_numbers() {
    let status: Status = 0x6C1A.into();
    assert_eq!((status.sw1(), status.sw2()), (0x6C, 0x1A));
    assert!(status == Status(0x6C1A) && status == 0x6C1A);
    assert!(status != 0x6C19 && status != 0x6C1B);
    let mut sorted = [Status(0x9000), Status(0x6100), Status(0x6A82)];
    sorted.sort();
    assert_eq!(sorted, [0x6100, 0x6A82, 0x9000]);
    let low = Status(0x0007);
    let shown = format!("{status} {low} {status:?} {status:X} {low:04X} {low:#X}");
    assert_eq!(shown, "6C1A 0007 Status(6C1A) 6C1A 0007 0x7");
}

/// Each status except 9000 is an error. An answer has the error of its status.
#[test]
fn refusals_are_errors() {
    for word in 0..=0xFFFF {
        let wanted = if word == 0x9000 { Ok(()) } else { Err(word) };
        assert_eq!(Status(word).ok().map_err(|it| it.status.0), wanted);
    }
    let mut session = session();
    let answer = session.get(0x5F20).expect("an answer");
    assert_eq!(answer.clone().ok(), Ok(answer));
    let part = session.send(b"\x00\xCA\x5F\x20\x02");
    let refused = part.expect("an answer").ok().expect_err("6104");
    assert_eq!(refused.status, 0x6104);
}

/// CLA and INS of a command, a status after it, and what that means.
const WORDS: &str = "
0000 60FF no known meaning
0000 6100 at least 256 bytes of the response wait
0000 61FF 255 bytes of the response wait
0000 6983 the method of authentication is blocked
0000 63CF a warning: a counter is at 15
0020 63C1 a warning: 1 try is left
7F20 63C2 a warning: 2 tries are left
8020 63C2 a warning: a counter is at 2
A020 63C2 a warning: a counter is at 2
A0A4 9F16 22 bytes of the response wait
A1A4 9F16 no known meaning
0000 6FFF an error of checking
0000 FFFF no known meaning
";

#[test]
fn statuses_have_words() {
    let number = |digits| u16::from_str_radix(digits, 16).expect("digits");
    for line in WORDS.trim().lines() {
        let [cla, ins] = number(&line[..4]).to_be_bytes();
        assert_eq!(Status(number(&line[5..9])).words(cla, ins), line[10..]);
    }
    for ins in 0..=0xFF {
        let counts = [0x20, 0x21, 0x24, 0x25, 0x26, 0x28, 0x2C, 0x2D, 0x82].contains(&ins);
        let got = Status(0x63C2).words(0x00, ins);
        assert_eq!(got.ends_with("tries are left"), counts, "{ins:02X}");
    }
    assert_eq!(Status(0x6982).text(), "security status not satisfied");
    assert_eq!(Status(0x61FF).text(), "XX bytes of the response wait");
    assert_eq!(Status(0x63C2).text(), "a warning: a counter is at X");
}

/// `Debug` shows something, but no byte of the secret, in hexadecimal or decimal.
fn hides(value: &impl fmt::Debug, wanted: &str) {
    let shown = format!("{value:?} {value:#?}");
    assert!(shown.starts_with(wanted), "{shown}");
    for byte in SECRET {
        for text in [format!("{byte:X}"), format!("{byte:x}"), format!("{byte}")] {
            assert!(!shown.contains(&text), "{shown}");
        }
    }
}

/// Answers with the data of a command.
struct Echo;

impl Application for Echo {
    fn takes_data(&self, _: [u8; 4]) -> bool {
        true
    }

    fn carry_out(&mut self, command: Command<'_>, response: &mut Response) -> Status {
        hides(&command, "Command([00, 10, 00, 00], 3 bytes, Le 0)");
        response.extend(command.data);
        Status(0x9000)
    }
}

#[test]
fn debug_shows_no_secret() {
    let put = Operation::Put(0x5F20, &SECRET);
    hides(&put, "Put(5F20, 3 bytes)");
    hides(&Operation::Send(&SECRET), "Send(3 bytes)");
    let select = format!("{:?}", Operation::Select(&AID));
    assert_eq!(select, "Select([A0, 00, 00, 00, 03, 10, 10])");
    assert_eq!(format!("{:?}", Operation::Get(0x5F20)), "Get(5F20)");
    let mut session = session();
    let answer = session.get(0x5F20).expect("an answer");
    assert_eq!(answer.data[3..], SECRET);
    hides(&answer, "Answer(9000, 6 bytes)");
    let entries: Vec<Entry> = session.entries(0).collect();
    hides(
        &entries,
        "[Entry(5F20, 3 bytes), Entry(50, 0 bytes, locked)]",
    );
    hides(&session, "Session(");
    let objects = Objects::over(&answer.data).expect("objects");
    hides(&objects, "Objects(1 left)");
    hides(&objects.iter(), "Copied");
    hides(&objects.last(), "Some(Object(5F20, 6 bytes))");
    let mut terminal = Terminal::new().expect("memory");
    terminal.begin(put).expect("begun");
    hides(&terminal, "Terminal(");
    assert_eq!(format!("{terminal:?}"), "Terminal(Handle)", "no address");
    terminal.reset().expect("a reset");
    let passing = terminal.begin_guarded(put).expect("begun");
    hides(&passing, "InProgress(");
    drop(passing);
    terminal.begin(put).expect("begun");
    let tpdu = terminal.tpdu().expect("memory").expect("due");
    assert_eq!(tpdu.bytes[5..], SECRET);
    hides(&tpdu, "Pdu(8 bytes, 0 back)");
    hides(&Turn::Sends(SECRET[0]), "Sends(_)");
    let mut card = OwnCard::new(Echo).expect("memory");
    card.receive_bytes(b"\x00\x10\x00\x00\x03")
        .expect("a header");
    assert_eq!(card.turn(), Ok(Turn::Sends(0x10)));
    card.receive_bytes(&SECRET).expect("data");
    assert_eq!(card.turn(), Ok(Turn::Sends(0x61)));
    hides(&card, "Card");
    assert_eq!(
        format!("{:?} {:?}", Turn::Listens, Turn::Done),
        "Listens Done"
    );
}

/// Data of a card, and whether they are one object with the tag 50: the object, with other bytes
/// around it, and the value alone.
#[test]
fn an_answer_is_one_object_or_not() {
    for (data, value) in [
        (&b"\x50\x01A"[..], Some(&b"A"[..])),
        (b"\x50\x81\x01A", Some(b"A")),
        (b"\x50\x00", Some(b"")),
        (b"\x00\x50\x01A", None),
        (b"\x50\x01A\x00", None),
        (b"\x50\x01A\x50\x01A", None),
        (b"\x51\x00\x50\x01A", None),
        (b"\x70\x03\x50\x01A", None),
        (b"\x50\x02A", None),
        (b"A", None),
        (b"", None),
    ] {
        let mut reader = |_: &[u8], answer: &mut [u8]| {
            answer[..data.len()].copy_from_slice(data);
            answer[data.len()] = 0x90;
            Ok::<usize, Error>(data.len() + 2)
        };
        let mut terminal = Terminal::new().expect("memory");
        let answer = terminal.run(&mut reader, Operation::Get(0x50));
        let answer = answer.expect("an answer");
        let found = answer.object(0x50).map(|it| it.value);
        assert_eq!(found, value, "{data:02X?}");
        assert_eq!(answer.object(0x5F), None, "no tag");
    }
}

/// A program that prints an error and each of its causes prints nothing twice.
#[test]
fn a_cause_is_told_once() {
    let chain = |fault: &dyn Cause| {
        let (mut texts, mut next) = (vec![fault.to_string()], fault.source());
        while let Some(cause) = next {
            texts.push(cause.to_string());
            next = cause.source();
        }
        texts
    };
    let name = CString::new(*b"\xFF").expect("no NUL");
    let gone = name.into_string().expect_err("no UTF-8");
    let causes = chain(&gone);
    assert_eq!(causes.len(), 2);
    assert_eq!(chain(&RunError::Transport(gone)), causes);
    let refused: RunError<fmt::Error> = Error::Stalled.into();
    assert_eq!(chain(&refused), ["stalled"]);
    let refused = Status(0x6982).ok().expect_err("a status");
    assert_eq!(chain(&refused), ["6982: security status not satisfied"]);
    let fault = find(&[0x50], &[0x50]).expect_err("a fault");
    assert_eq!(chain(&fault), ["length cut at 0"]);
    let fault = Atr::read(b"\x3A").expect_err("a fault");
    assert_eq!(chain(&fault), ["no TS at 0"]);
    let mut exchange = Exchange::start(&[0x00, 0xCA, 0x5F, 0x20]).expect("memory");
    let fault = exchange.receive_bytes(&[0x60]).expect_err("a fault");
    assert_eq!(chain(&fault), ["not listening at 0"]);
}

/// Values that may be keys of a set.
#[test]
fn values_have_hashes() {
    fn is_key<T: Hash + Eq>() {}
    is_key::<(Status, Turn, Stop, Pps, Operation<'_>)>();
    is_key::<(Atr<'_>, Answer, Entry, Pdu)>();
}

/// Only one of these two impls fits a type that is not `Sync`. Of any other, `_` is ambiguous.
trait IsShared<Which> {
    fn look() {}
}
impl<T: ?Sized> IsShared<()> for T {}
impl<T: ?Sized + Sync> IsShared<bool> for T {}

/// Types that may go to another thread and can't be shared, and their names.
macro_rules! handles {
    ($($name:ident $(<$of:ty>)?),*) => {{
        fn goes<T: Send>() {}
        $(goes::<galliumtoad::$name $(<$of>)?>();)*
        $(<galliumtoad::$name $(<$of>)? as IsShared<_>>::look();)*
        [$(stringify!($name)),*]
    }};
}

/// The crate's page lists which types may go to another thread, or be shared.
#[test]
fn handles_may_go_to_another_thread_and_other_values_be_shared() {
    let names = handles!(
        Terminal,
        InProgress,
        Exchange,
        CardBuilder,
        Card,
        Session,
        T1,
        OwnCard<()>,
        CardT1,
        T1Line<u8>
    );
    let page = include_str!("../README.md");
    let told = page.split("## Threads").nth(1).expect("a section");
    let told = told
        .split("are `Send` and not `Sync`")
        .next()
        .expect("a list");
    let told: Vec<&str> = told.split('`').skip(1).step_by(2).collect();
    assert_eq!(told, names);
    fn is_shared<T: Send + Sync>() {}
    is_shared::<(Answer, Entry, Command<'_>, Response, Pdu, Level, Atr<'_>)>();
    is_shared::<(
        Objects<'_>,
        Operation<'_>,
        RunError<Error>,
        Refused,
        galliumtoad::Waits,
    )>();
    is_shared::<(galliumtoad::WholeCommands<u8>, galliumtoad::By<u8>)>();
}
