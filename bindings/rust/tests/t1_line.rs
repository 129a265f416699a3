//! Tests both ends at T=1, and a line as a transport: its blocks, times and faults, by ISO/IEC
//! 7816-3, clause 11.

use galliumtoad::{Application, CardBuilder, CardT1, Cause, Command, Edc, Error, Level, Line};
use galliumtoad::{By, Operation, Outcome, OwnCard, Response, RunError, Status, T1Fault, T1Limits};
use galliumtoad::{T1Line, T1Waits, Terminal, Transport, BLOCK_LIMIT, T1};
use std::collections::VecDeque;
use std::time::Duration;

const GET: &[u8] = b"\x00\xCA\x5F\x20\x00";

const WAITS: T1Waits = T1Waits {
    block: Duration::from_millis(1000),
    character: Duration::from_millis(20),
    guard: Duration::from_millis(3),
};

type Fault = Box<dyn std::error::Error>;

/// A call of the line: what was sent, or how long it had to wait.
#[derive(Debug, PartialEq)]
enum Call {
    Sent(Vec<u8>),
    Waited(u64),
}

/// A line that answers each sent block in turn, and notes its calls.
#[derive(Debug, Default)]
struct Scripted {
    answers: VecDeque<Vec<u8>>,
    arrived: VecDeque<u8>,
    /// How many bytes a call returns at most.
    at_once: usize,
    calls: Vec<Call>,
}

impl Line for Scripted {
    type Error = Fault;

    fn send(&mut self, bytes: &[u8]) -> Result<(), Fault> {
        assert!(self.arrived.is_empty(), "all that is late is dropped first");
        self.calls.push(Call::Sent(bytes.to_vec()));
        let answer = self.answers.pop_front().ok_or("no cable")?;
        self.arrived.extend(answer);
        Ok(())
    }

    fn receive(&mut self, room: &mut [u8], wait: Duration) -> Result<usize, Fault> {
        assert_eq!(room.len(), BLOCK_LIMIT);
        self.calls.push(Call::Waited(wait.as_millis() as u64));
        let count = self.at_once.min(self.arrived.len());
        for (place, byte) in room.iter_mut().zip(self.arrived.drain(..count)) {
            *place = byte;
        }
        Ok(count)
    }
}

/// A block: NAD 00, PCB, LEN, the field and the LRC.
fn block(pcb: u8, info: &[u8]) -> Vec<u8> {
    let length = u8::try_from(info.len()).expect("a field");
    let mut bytes = [&[0, pcb, length], info].concat();
    bytes.push(bytes.iter().fold(0, |sum, byte| sum ^ byte));
    bytes
}

fn end() -> T1 {
    let limits = T1Limits {
        tries: 1,
        ..T1Limits::default()
    };
    T1::new(Edc::Lrc, 32, limits).expect("an end")
}

fn line(answers: &[&[u8]], at_once: usize) -> T1Line<Scripted> {
    let scripted = Scripted {
        answers: answers.iter().map(|it| it.to_vec()).collect(),
        at_once,
        ..Scripted::default()
    };
    T1Line::new(end(), WAITS, scripted)
}

/// The response to a command, or the text of the fault.
fn response<L: Line<Error = Fault>>(line: &mut T1Line<L>) -> Result<Vec<u8>, String> {
    let mut room = [0; 258];
    let passed = line.transmit(GET, &mut room);
    let count = passed.map_err(|it| it.to_string())?;
    Ok(room[..count].to_vec())
}

/// S(IFS response), the card's answer to the first block of each end.
fn ifs() -> Vec<u8> {
    block(0xE1, b"\xFE")
}

#[test]
fn a_command_keeps_the_times_of_the_line() {
    let answer = block(0x00, b"\x90\x00");
    let mut line = line(&[&ifs(), &block(0xC3, b"\x07"), &answer], 5);
    assert_eq!(line.level(), Level::Apdu);
    assert_eq!(response(&mut line), Ok(b"\x90\x00".to_vec()));
    let wanted = [
        Call::Waited(3),
        Call::Sent(block(0xC1, b"\xFE")),
        Call::Waited(1000),
        Call::Waited(3),
        Call::Sent(block(0x00, GET)),
        Call::Waited(1000),
        Call::Waited(3),
        // the card has asked for 7 times BWT; its answer comes in two pieces
        Call::Sent(block(0xE3, b"\x07")),
        Call::Waited(7000),
        Call::Waited(20),
    ];
    assert_eq!(line.line.calls, wanted);
}

/// A whole block with 9000 from before the command, and a byte behind a block, are no answer.
#[test]
fn what_is_late_is_dropped() {
    let late = [ifs(), vec![0x00]].concat();
    let mut line = line(&[&late, &block(0x00, b"\x6A\x88")], 300);
    line.line.arrived.extend(block(0x00, b"\x90\x00"));
    assert_eq!(response(&mut line), Ok(b"\x6A\x88".to_vec()));
    assert_eq!(line.line.calls[0], Call::Waited(3));
    assert_eq!(line.line.calls[1], Call::Waited(3));
    assert_eq!(line.line.calls[2], Call::Sent(block(0xC1, b"\xFE")));
}

/// A block that stops is asked for again: R with 2, another error.
#[test]
fn a_block_that_stops_is_asked_for_again() {
    let answer = block(0x00, b"\x90\x00");
    let mut line = line(&[&ifs(), &answer[..4], &answer], 1);
    assert_eq!(response(&mut line), Ok(b"\x90\x00".to_vec()));
    let sent = line.line.calls.iter().filter_map(|it| match it {
        Call::Sent(bytes) => Some(bytes.clone()),
        Call::Waited(_) => None,
    });
    let wanted = [block(0xC1, b"\xFE"), block(0x00, GET), block(0x82, b"")];
    assert_eq!(sent.collect::<Vec<_>>(), wanted);
}

#[test]
fn a_silent_card_is_given_up() {
    let mut line = line(&[&ifs(), b"", b"", &ifs(), &block(0x00, b"\x90\x00")], 300);
    let gave_up = "too many tries without progress: the card may have carried out the command";
    assert_eq!(response(&mut line), Err(gave_up.into()));
    assert_eq!(line.line.answers.len(), 2);
    assert_eq!(response(&mut line), Err(Error::State.to_string()));
    assert_eq!(line.line.answers.len(), 2, "nothing is sent");
    line.end.reset().expect("a handle");
    assert_eq!(response(&mut line), Ok(b"\x90\x00".to_vec()));
}

#[test]
fn a_line_that_fails_ends_the_command() {
    let mut line = line(&[&ifs()], 300);
    let mut terminal = Terminal::new().expect("memory");
    let found = terminal.run(&mut line, Operation::Get(0x5F20));
    assert!(matches!(found, Err(RunError::Transport(it)) if it.to_string() == "no cable"));
    assert_eq!(response(&mut line), Err(Error::State.to_string()));
    // more bytes than there is room for
    let mut claims = reads(|room, wait| {
        if wait == WAITS.guard {
            0
        } else {
            room.len() + 1
        }
    });
    assert_eq!(response(&mut claims), Err(Error::TooMany.to_string()));
}

/// A line that takes all, and reads as this function says.
struct Reads<F>(F);

impl<F: FnMut(&mut [u8], Duration) -> usize> Line for Reads<F> {
    type Error = Fault;

    fn send(&mut self, _: &[u8]) -> Result<(), Fault> {
        Ok(())
    }

    fn receive(&mut self, room: &mut [u8], wait: Duration) -> Result<usize, Fault> {
        Ok(self.0(room, wait))
    }
}

fn reads<F: FnMut(&mut [u8], Duration) -> usize>(reads: F) -> T1Line<Reads<F>> {
    T1Line::new(end(), WAITS, Reads(reads))
}

/// A line that is never quiet, and whose bytes are no block, ends in a fault too.
#[test]
fn noise_is_given_up() {
    let mut count = 0;
    let mut line = reads(|room, _| {
        room[0] = 0xFF;
        count += 1;
        assert!(count < 10_000, "it ends");
        1
    });
    line.waits.block = Duration::MAX;
    let fault = line.transmit(GET, &mut [0; 258]).expect_err("a fault");
    let fault = fault.downcast_ref::<T1Fault>().expect("the end's fault");
    assert_ne!(fault.outcome, Outcome::InPart);
}

/// R with 1 after a wrong parity, with 2 after a time-out. After a reset there is nothing to send.
#[test]
fn both_ends_say_why_they_ask_again() {
    let mut room = [0; BLOCK_LIMIT];
    let builder = CardBuilder::new().expect("memory");
    let mut card = CardT1::new(builder.finish().expect("a card")).expect("a card");
    for (is_damaged, pcb) in [(false, 0x82), (true, 0x81)] {
        assert_eq!(card.block_into(&mut room), Ok(None));
        let told = if is_damaged {
            card.damaged()
        } else {
            card.missed()
        };
        assert_eq!(told, Ok(()));
        let count = card.block_into(&mut room).expect("memory");
        assert_eq!(room[..count.expect("a block")], block(pcb, b""));
        assert_eq!(card.reset(), Ok(()));
    }
    let mut end = end();
    end.begin(GET).expect("memory");
    assert!(end.receive(&ifs()).expect("memory").is_whole);
    assert_eq!(end.damaged(), Ok(()));
    let sent = end.block_into(&mut room).expect("memory");
    assert_eq!(room[..sent.expect("a block").count], block(0x81, b""));
}

/// An end keeps to its limits, and takes what is within. Seven times a long BWT is no overflow.
#[test]
fn an_end_has_limits() {
    let [more, answer] = [block(0xC3, b"\x07"), block(0x00, b"A\x90\x00")];
    for (extensions, longest, cause) in [
        (1, 3, None),
        (0, 3, Some(Cause::ExtensionsSpent)),
        (1, 2, Some(Cause::TooLong)),
    ] {
        let mut line = line(&[&ifs(), &more, &answer], 300);
        let limits = T1Limits {
            extensions,
            response: longest,
            ..T1Limits::default()
        };
        line.end = T1::new(Edc::Lrc, 32, limits).expect("an end");
        line.waits.block = Duration::MAX;
        assert_eq!(response(&mut line).is_ok(), cause.is_none());
        assert_eq!(line.end.fault().map(|it| it.cause), cause);
    }
}

/// Counts the commands that it carries out, and answers each with 300 bytes.
struct Counter(u32);

impl Application for Counter {
    fn takes_data(&self, _: [u8; 4]) -> bool {
        false
    }

    fn carry_out(&mut self, _: Command<'_>, response: &mut Response) -> Status {
        self.0 += 1;
        response.extend(&[0; 300]);
        Status(0x9000)
    }
}

/// A line to such a card, on which this many blocks of the terminal arrive, and no more.
struct Losing {
    card: CardT1<Counter>,
    arrive: usize,
    answer: Vec<u8>,
}

impl Line for Losing {
    type Error = Fault;

    fn send(&mut self, bytes: &[u8]) -> Result<(), Fault> {
        let mut room = [0; BLOCK_LIMIT];
        if self.arrive > 0 {
            self.arrive -= 1;
            self.card.receive(bytes)?;
            let count = self.card.block_into(&mut room)?.expect("a block");
            self.answer = room[..count].to_vec();
        }
        Ok(())
    }

    fn receive(&mut self, room: &mut [u8], _: Duration) -> Result<usize, Fault> {
        let count = self.answer.len();
        room[..count].copy_from_slice(&self.answer);
        self.answer.clear();
        Ok(count)
    }
}

/// A line to a card whose IFSC is 4, so that each command takes two blocks.
fn losing(arrive: usize) -> T1Line<Losing> {
    let card = OwnCard::new(Counter(0)).and_then(CardT1::new);
    let end = T1::new(Edc::Lrc, 4, T1Limits::default()).expect("an end");
    let card = card.expect("a card");
    let answer = Vec::new();
    T1Line::new(
        end,
        WAITS,
        Losing {
            card,
            arrive,
            answer,
        },
    )
}

/// What is known after a command of Le 00, or `None` if it has its answer.
fn outcome<L: Line<Error = Fault>>(line: &mut T1Line<L>) -> Option<Outcome> {
    let mut terminal = Terminal::new().expect("memory");
    match terminal.run(&mut By(line), Operation::Send(b"\x80\x10\x00\x00\x00")) {
        Ok(_) => None,
        Err(RunError::Transport(it)) => Some(it.downcast_ref::<T1Fault>().expect("it").outcome),
        Err(it) => panic!("{it}"),
    }
}

/// The blocks are S(IFS request), two of the command, R for the rest of 256 bytes, and two of GET
/// RESPONSE. The last command may not be carried out, although the card has counted.
#[test]
fn a_fault_speaks_of_the_operation() {
    use Outcome::{InPart, NotCarriedOut, Unknown};
    let told = [
        NotCarriedOut,
        NotCarriedOut,
        Unknown,
        InPart,
        InPart,
        InPart,
    ];
    for (arrive, wanted) in told.into_iter().enumerate() {
        let mut line = losing(arrive);
        assert_eq!(outcome(&mut line), Some(wanted), "{arrive} blocks arrive");
        let count = line.line.card.card().application().0;
        assert_eq!(count, u32::from(arrive > 2));
    }
    // the next operation, and a command alone, are another matter
    for is_alone in [false, true] {
        let mut line = losing(told.len());
        assert_eq!(outcome(&mut line), None);
        let found = if is_alone {
            let fault = line.transmit(GET, &mut [0; 258]).expect_err("it is lost");
            fault.downcast_ref::<T1Fault>().map(|it| it.outcome)
        } else {
            outcome(&mut line)
        };
        assert_eq!(found, Some(NotCarriedOut));
        assert_eq!(line.line.card.card().application().0, 1);
    }
}

/// After `6CXX` a card may have carried the command out, or not. After `61XX` it has.
#[test]
fn a_command_that_goes_again_may_be_carried_out() {
    let [next, more] = [block(0x90, b""), block(0x00, b"\x61\x03")];
    let [again, again_later] = [0x00, 0x40].map(|pcb| block(pcb, b"\x6C\x03"));
    let fetches: &[&[u8]] = &[&ifs(), &next, &more, &next, &again_later, b"", b""];
    let repeats: &[&[u8]] = &[&ifs(), &next, &again, b"", b""];
    for (answers, wanted) in [(repeats, Outcome::Unknown), (fetches, Outcome::InPart)] {
        let mut line = line(answers, 300);
        let limits = T1Limits {
            tries: 1,
            ..T1Limits::default()
        };
        line.end = T1::new(Edc::Lrc, 4, limits).expect("an end");
        assert_eq!(outcome(&mut line), Some(wanted));
        assert!(line.line.answers.is_empty());
    }
}
