//! Tests a card of an application of your own, by each way to its line. Answers are by ISO/IEC
//! 7816-3 and 7816-4 and the rules of the card.

use galliumtoad::{Application, CardT1, Command, Edc, Error, Exchange, OwnCard, Response, Status};
use galliumtoad::{Stop, T1Limits, Turn, BLOCK_LIMIT, T1};
use std::cell::{Cell, RefCell};
use std::panic::{catch_unwind, set_hook, take_hook, AssertUnwindSafe};

/// Where the application fails.
#[derive(Clone, Copy, PartialEq)]
enum Fails {
    Nowhere,
    Header,
    Time,
    Command,
    Settling,
}

/// What reached the application.
#[derive(Clone, Debug, PartialEq)]
enum Step {
    /// A header: do data follow?
    Asked([u8; 4]),
    /// A command for which it asked for more time: header, data, Le and the multiple.
    Waits([u8; 4], Vec<u8>, usize, u8),
    /// A command that it carried out: header, data and Le.
    Did([u8; 4], Vec<u8>, usize),
    Settled,
    Reset,
}
use Step::{Asked, Did, Reset, Settled, Waits};

/// INS A4 and D6 take data. P1-P2 is the number of bytes of a response: to B0 and A4 9000 follows
/// them, to B2 6283. D6 has none: 9000. P1-P2 of 5A is the status. It asks for more
/// time as often as `multiple` says, which counts down.
struct Probe {
    steps: RefCell<Vec<Step>>,
    multiple: u8,
    fails: Cell<Fails>,
}

impl Probe {
    fn log(&self, step: Step) {
        self.steps.borrow_mut().push(step);
    }
}

/// The first bytes of each response.
fn bytes(count: usize) -> Vec<u8> {
    (0..count).map(|at| (at * 7 + at / 256 + 3) as u8).collect()
}

impl Application for Probe {
    fn takes_data(&self, header: [u8; 4]) -> bool {
        self.log(Asked(header));
        assert!(self.fails.get() != Fails::Header, "planned");
        matches!(header[1], 0xA4 | 0xD6)
    }

    fn more_time(&mut self, command: Command<'_>) -> u8 {
        assert!(self.fails.get() != Fails::Time, "planned");
        let multiple = self.multiple;
        if multiple > 0 {
            let data = command.data.to_vec();
            self.log(Waits(command.header, data, command.le, multiple));
            self.multiple -= 1;
        }
        multiple
    }

    fn carry_out(&mut self, command: Command<'_>, response: &mut Response) -> Status {
        let [_, ins, p1, p2] = command.header;
        self.log(Did(command.header, command.data.to_vec(), command.le));
        response.extend(b"");
        let number = u16::from_be_bytes([p1, p2]);
        if matches!(ins, 0xB0 | 0xB2 | 0xA4) {
            // in two parts
            let made = bytes(number.into());
            let (front, rest) = made.split_at(made.len() / 3);
            response.extend(front);
            response.extend(rest);
        }
        assert!(self.fails.get() != Fails::Command, "planned");
        Status(match ins {
            0xB0 | 0xA4 | 0xD6 => 0x9000,
            0xB2 => 0x6283,
            0x5A => number,
            _ => 0x6D00,
        })
    }

    fn settle(&mut self) {
        self.log(Settled);
        assert!(self.fails.get() != Fails::Settling, "planned");
    }

    fn reset(&mut self) {
        self.log(Reset);
    }
}

type Own = OwnCard<Probe>;

fn own() -> Own {
    let (steps, fails) = (Vec::new().into(), Fails::Nowhere.into());
    let multiple = 0;
    OwnCard::new(Probe {
        steps,
        multiple,
        fails,
    })
    .expect("memory")
}

/// What reached the application since the last call, without headers.
fn steps(card: &Own) -> Vec<Step> {
    let steps = card.application().steps.take();
    let is_header = |it: &Step| matches!(it, Asked(_));
    steps.into_iter().filter(|it| !is_header(it)).collect()
}

/// A command that reached the application and settled.
fn done(header: [u8; 4], data: &[u8], le: usize) -> Vec<Step> {
    vec![Did(header, data.to_vec(), le), Settled]
}

/// What a terminal sends, the data and the status that come back, and what reached the application.
type Row<'a> = (&'a [u8], usize, usize, u16, Vec<Step>);

/// Carries out each row, and compares. The data are those of `bytes` between two places.
fn rows(mut by: impl FnMut(&[u8]) -> (Vec<u8>, Vec<Step>), rows: &[Row<'_>]) {
    for (sent, from, to, status, wanted) in rows {
        let answer = [&bytes(*to)[*from..], &status.to_be_bytes()].concat();
        assert_eq!(by(sent), (answer, wanted.clone()), "{sent:02X?}");
    }
}

/// What the crate passes between the card and its application. The rules are proved.
#[test]
fn by_characters() {
    let mut card = own();
    let [read, select] = [[0x00, 0xB0, 0x00, 0x05], [0x00, 0xA4, 0x00, 0x10]];
    let (none, selected) = ([0x00, 0x1A, 0x12, 0x34], done(select, b"ABC", 0));
    rows(
        |tpdu| (talked(&mut card, tpdu), steps(&card)),
        &[
            (b"\x00\xB0\x00\x05\x04", 0, 4, 0x6101, done(read, b"", 4)),
            // the response is kept, and the application is not asked again
            (b"\x00\xC0\x00\x00\x01", 4, 5, 0x9000, vec![]),
            (b"\x00\xA4\x00\x10\x03ABC", 0, 0, 0x6110, selected),
            (b"\x00\x1A\x12\x34\x00", 0, 0, 0x6D00, done(none, b"", 256)),
        ],
    );
}

/// Passes a command by characters: one TPDU, if it wants no more than comes.
fn talked(card: &mut Own, command: &[u8]) -> Vec<u8> {
    let mut terminal = Exchange::start(command).expect("memory");
    loop {
        match terminal.turn().expect("an exchange") {
            Turn::Sends(byte) => card.take(byte).expect("listens"),
            Turn::Done => break,
            Turn::Listens => match card.turn().expect("a card") {
                Turn::Sends(byte) => terminal.take(byte).expect("listens"),
                _ => panic!("both ends wait"),
            },
        }
    }
    assert_eq!(card.turn(), Ok(Turn::Listens));
    let answer = terminal.answer().expect("an answer");
    [&answer.data[..], &answer.status.0.to_be_bytes()].concat()
}

/// By whole commands a command settles at once.
fn by_whole(by: impl FnMut(&[u8]) -> (Vec<u8>, Vec<Step>)) {
    let [read, warns] = [[0x00, 0xB0, 0x00, 0x05], [0x80, 0xB2, 0x00, 0x05]];
    let selected = done([0x00, 0xA4, 0x00, 0x10], b"ABC", 0);
    rows(
        by,
        &[
            (b"\x00\xB0\x00\x05\x00", 0, 5, 0x9000, done(read, b"", 256)),
            (b"\x80\xB2\x00\x05\x03", 0, 3, 0x6102, done(warns, b"", 3)),
            (b"\x00\xC0\x00\x00\x00", 3, 5, 0x6283, vec![]),
            (b"\x00\xA4\x00\x10\x03ABC\x00", 0, 16, 0x9000, selected),
            // the application says that no data come
            (b"\x00\xB0\x00\x05\x01A", 0, 0, 0x6700, vec![]),
        ],
    );
}

#[test]
fn by_commands() {
    let mut card = own();
    by_whole(|command| (card.apdu(command).expect("a command"), steps(&card)));
    assert_eq!(card.apdu(b"\x00\x60\x00\x00"), Err(Error::InvalidIns));
    assert_eq!(card.tpdu(b"\x00\x60\x00\x00\x02"), Ok(vec![0x6D, 0x00]));
    assert_eq!(steps(&card), []);
}

/// Carries a command over a line at T=1, on which each third block to the card is lost.
fn over_t1(card: &mut CardT1<Probe>, terminal: &mut T1, command: &[u8]) -> Vec<u8> {
    let mut room = [0; BLOCK_LIMIT];
    let mut count = 0;
    terminal.begin(command).expect("memory");
    while let Some(block) = terminal.block_into(&mut room).expect("an end") {
        count += 1;
        if count % 3 == 0 || !card.receive(&room[..block.count]).expect("bytes").is_whole {
            card.missed().expect("a card");
        }
        assert_eq!(card.block_into(&mut room[..3]), Err(Error::Buffer));
        let count = card.block_into(&mut room).expect("a card");
        let came = terminal.receive(&room[..count.expect("a block")]);
        assert!(came.expect("memory").is_whole);
    }
    let n = terminal.response_into(&mut room).expect("a response");
    room[..n].to_vec()
}

#[test]
fn at_t1() {
    let mut card = CardT1::new(own()).expect("a card");
    let mut terminal = T1::new(Edc::Lrc, 32, T1Limits::default()).expect("memory");
    let _ = steps(card.card());
    by_whole(|command| {
        let answer = over_t1(&mut card, &mut terminal, command);
        (answer, steps(card.card()))
    });
    let mut card = card.into_card().expect("a card");
    assert_eq!(steps(&card), [Reset]);
    assert_eq!(talked(&mut card, b"\x00\xC0\x00\x00\x01"), b"\x69\x85");
}

const UPDATE: &[u8] = b"\x00\xD6\x00\x00\x01A";
const HEADER: [u8; 4] = [0, 0xD6, 0, 0];

/// An UPDATE BINARY for which a card asks twice for more time.
fn waited() -> Vec<Step> {
    let waits = |multiple| Waits(HEADER, b"A".to_vec(), 0, multiple);
    [vec![waits(2), waits(1)], done(HEADER, b"A", 0)].concat()
}

/// What a card hands out in each buffer, until it listens.
fn buffers(card: &mut Own) -> Vec<Vec<u8>> {
    let (mut room, mut sent) = ([0; 9], vec![]);
    loop {
        let got = card.send_bytes(&mut room).expect("a card");
        sent.push(room[..got.count].to_vec());
        if got.stop == Stop::Listens {
            return sent;
        }
    }
}

/// A NULL for each time that the application asks, and then the answer (ISO/IEC 7816-3, 10.3.3).
#[test]
fn more_time_by_characters() {
    let mut card = own();
    card.application_mut().multiple = 2;
    assert_eq!(talked(&mut card, UPDATE), b"\x90\x00");
    assert_eq!(steps(&card), waited());
    card.application_mut().multiple = 2;
    card.receive_bytes(&UPDATE[..5]).expect("listens");
    assert_eq!(buffers(&mut card), [b"\xD6"]);
    card.receive_bytes(&UPDATE[5..]).expect("listens");
    assert_eq!(buffers(&mut card), [&b"\x60"[..], b"\x60", b"\x90\x00"]);
    assert_eq!(steps(&card), waited());
}

/// A reset drops the NULL and the command.
#[test]
fn a_reset_while_the_application_has_more_time() {
    let mut card = own();
    card.application_mut().multiple = 3;
    card.receive_bytes(b"\x00\xB0\x00\x02\x02")
        .expect("listens");
    assert_eq!(card.turn(), Ok(Turn::Sends(0x60)));
    card.reset().expect("a card");
    let waits = Waits([0, 0xB0, 0, 2], vec![], 2, 3);
    assert_eq!(steps(&card), [waits, Reset]);
    assert_eq!(talked(&mut card, UPDATE), b"\x90\x00");
    assert_eq!(steps(&card), waited());
}

/// A whole TPDU or command is carried out at once.
#[test]
fn no_more_time_for_what_came_whole() {
    let mut card = own();
    card.application_mut().multiple = 2;
    for way in [OwnCard::tpdu, OwnCard::apdu] {
        assert_eq!(way(&mut card, UPDATE), Ok(b"\x90\x00".to_vec()));
        assert_eq!(steps(&card), done(HEADER, b"A", 0));
    }
}

/// A block: NAD 00, PCB, LEN, the field and the LRC.
fn block(pcb: u8, field: &[u8]) -> Vec<u8> {
    let mut bytes = [&[0, pcb, field.len() as u8], field].concat();
    bytes.push(bytes.iter().fold(0, |sum, byte| sum ^ byte));
    bytes
}

/// S(WTX request) with the multiple, again after a block that is lost (ISO/IEC 7816-3, 11.6.2.3).
#[test]
fn more_time_at_t1() {
    let mut card = own();
    card.application_mut().multiple = 2;
    let mut card = CardT1::new(card).expect("a card");
    let _ = steps(card.card());
    let mut room = [0; BLOCK_LIMIT];
    for (came, answer) in [
        (block(0x00, UPDATE), block(0xC3, &[2])),
        (vec![], block(0xC3, &[2])),
        (block(0xE3, &[2]), block(0xC3, &[1])),
        (block(0xE3, &[1]), block(0x00, b"\x90\x00")),
    ] {
        if !card.receive(&came).expect("bytes").is_whole {
            card.missed().expect("a card");
        }
        let count = card.block_into(&mut room).expect("a card");
        assert_eq!(room[..count.expect("a block")], answer);
    }
    assert_eq!(steps(card.card()), waited());
}

/// Both ends would deadlock: the card is reset, and its application once.
#[test]
fn deadlocks() {
    let mut card = own();
    assert_eq!(card.tpdu(b"\x00\xD6\x00\x00\x02"), Err(Error::WantsData));
    assert_eq!(steps(&card), [Reset]);
    assert_eq!(card.tpdu(b"\x00\xB0\x00\x05\x01A"), Err(Error::SendsData));
    assert_eq!(steps(&card), [Did([0, 0xB0, 0, 5], vec![], 1), Reset]);
    // without a question
    assert_eq!(card.apdu(b"\x00\xB0\x00\x05").map(|it| it.len()), Ok(2));
    steps(&card);
    assert_eq!(card.tpdu(b"\x00\xC0\x00\x00\x01A"), Err(Error::SendsData));
    assert_eq!(steps(&card), [Reset]);
}

/// A command settles with SW2 of its TPDU, and a reset before that drops it.
#[test]
fn settling() {
    for (tpdu, le, sent) in [
        (b"\x00\xB0\x00\x02\x02", 2, &b"\xB0\x03\x0A\x90\x00"[..]),
        (b"\x00\xB0\x00\x02\x01", 1, b"\xB0\x03\x61\x01"),
        (b"\x00\xB0\x00\x02\x03", 3, b"\x6C\x02"),
        (b"\x00\x1A\x00\x02\x03", 3, b"\x6D\x00"),
    ] {
        let did = Did(tpdu[..4].try_into().expect("a header"), vec![], le);
        for passed in 0..=sent.len() {
            let mut card = own();
            card.receive_bytes(tpdu).expect("listens");
            // a refused call asks nothing of the application
            assert_eq!(card.take(0x00), Err(Error::NotListening));
            assert_eq!(steps(&card), []);
            let mut room = [0; 9];
            let got = card.send_bytes(&mut room[..passed]).expect("a card");
            assert_eq!(room[..got.count], sent[..passed]);
            let seen = steps(&card);
            card.reset().expect("a card");
            let wanted = match passed {
                0 => vec![],
                it if it < sent.len() => vec![did.clone()],
                _ => vec![did.clone(), Settled],
            };
            assert_eq!((seen, steps(&card)), (wanted, vec![Reset]), "{passed}");
            // nothing is left of it
            assert_eq!(talked(&mut card, b"\x00\xC0\x00\x00\x01"), b"\x69\x85");
            let answer = talked(&mut card, b"\x00\xD6\x00\x00\x01A");
            assert_eq!(answer, b"\x90\x00");
            assert_eq!(steps(&card), done([0, 0xD6, 0, 0], b"A", 0));
        }
    }
}

/// After a status or a response that none may answer the card is reset, by each way. Which these
/// are is proved.
#[test]
fn what_no_application_answers() {
    interrupted(&calls(), b"\x00\x5A\x61\x00\x05", |_| Some(Error::Argument));
    interrupted(&calls(), b"\x00\xB0\x10\x01\x05", |_| Some(Error::Argument));
    let answer = talked(&mut own(), b"\x00\x5A\x9F\xFF\x05");
    assert_eq!(answer, [0x9F, 0xFF]);
}

#[test]
fn panics() {
    set_hook(Box::new(|fault| {
        let text = fault.to_string();
        if !text.contains("planned") {
            eprintln!("{text}");
        }
    }));
    for (fails, ways) in [
        (Fails::Header, &calls()[..]),
        (Fails::Time, &calls()[..2]), // the others ask for none
        (Fails::Command, &calls()[..]),
        (Fails::Settling, &calls()[..]),
    ] {
        interrupted(ways, b"\x00\xB0\x00\x05\x05", |card| {
            card.fails.set(fails);
            None
        });
    }
    drop(take_hook());
}

/// A way of a command at a card.
type Way = fn(&mut Own, &[u8]) -> Result<(), Error>;

fn calls() -> [Way; 4] {
    let by_characters: Way = |card, command| {
        card.receive_bytes(command).expect("listens");
        while card.turn()? != Turn::Listens {}
        Ok(())
    };
    [
        by_characters,
        |card, command| {
            card.receive_bytes(command).expect("listens");
            card.send_bytes(&mut [0; 9]).map(|_| ())
        },
        |card, command| card.tpdu(command).map(|_| ()),
        |card, command| card.apdu(command).map(|_| ()),
    ]
}

/// Has the application fail in this command, by each way: the card is as after a reset.
fn interrupted(ways: &[Way], command: &[u8], prepare: impl Fn(&Probe) -> Option<Error>) {
    for call in ways {
        let mut card = own();
        let waits = talked(&mut card, b"\x00\xB0\x00\x05\x03");
        assert_eq!(waits.len(), 5);
        steps(&card);
        let fault = prepare(card.application());
        let ended = catch_unwind(AssertUnwindSafe(|| call(&mut card, command)));
        assert_eq!(ended.ok(), fault.map(Err));
        card.application_mut().fails = Fails::Nowhere.into();
        assert_eq!(steps(&card).iter().filter(|it| **it == Reset).count(), 1);
        assert_eq!(talked(&mut card, b"\x00\xC0\x00\x00\x02"), b"\x69\x85");
        assert_eq!(talked(&mut card, UPDATE), b"\x90\x00");
        assert_eq!(steps(&card), done(HEADER, b"A", 0));
    }
}
