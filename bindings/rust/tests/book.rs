//! Runs the plays of the book of examples over whole TPDUs, commands and blocks, and in a session.
//! What they print is stored beside them. `card_trace`, `gt_pcsc`, `gt_serial` and the package for
//! Python run the same plays.

use galliumtoad::{whole_commands, Answer, Atr, Card, CardBuilder, CardT1, End, Entry, Line};
use galliumtoad::{Level, Operation, Session, T1Limits, T1Line, Terminal, BLOCK_LIMIT, T1};
use std::collections::VecDeque;
use std::fs;
use std::path::{Path, PathBuf};
use std::time::Duration;

/// The plays of the book, by its index.
fn book() -> Vec<PathBuf> {
    let book = Path::new(env!("CARGO_MANIFEST_DIR")).join("../../examples");
    let index = text(&book.join("README.md"));
    let rows = index.lines().filter_map(|it| it.strip_prefix("| `"));
    let names = rows.filter_map(|it| it.split('`').next());
    let found = names.filter(|it| it.ends_with(".play"));
    found.map(|it| book.join(it)).collect()
}

fn text(path: &Path) -> String {
    fs::read_to_string(path).expect("text")
}

/// The words of each line, without empty lines and comments.
fn words(script: &str) -> Vec<Vec<&str>> {
    let lines = script.lines().filter(|it| !it.starts_with('#'));
    let split = lines.map(|it| it.split_whitespace().collect());
    split.filter(|it: &Vec<&str>| !it.is_empty()).collect()
}

fn number(digits: &str) -> u32 {
    u32::from_str_radix(digits, 16).expect("digits")
}

fn bytes(digits: &str) -> Vec<u8> {
    let pairs = (0..digits.len()).step_by(2);
    pairs.map(|at| number(&digits[at..at + 2]) as u8).collect()
}

fn digits(bytes: &[u8]) -> String {
    bytes.iter().map(|byte| format!("{byte:02X}")).collect()
}

/// A value of a script: digits, a byte and how many times, or `-` for none.
fn value(word: &str) -> Vec<u8> {
    match word.split_once('*') {
        Some((byte, count)) => bytes(byte).repeat(count.parse().expect("a count")),
        None => bytes(word.trim_start_matches('-')),
    }
}

/// Builds the card of the first lines of a script. Returns the other lines too.
fn built<'a>(lines: &'a [Vec<&'a str>]) -> (Card, &'a [Vec<&'a str>]) {
    let mut builder = CardBuilder::new().expect("memory");
    for (at, line) in lines.iter().enumerate() {
        match line[0] {
            "app" => builder.app(&bytes(line[1])),
            "object" => builder.object(number(line[1]), &value(line[2])),
            "locked" => builder.locked(number(line[1]), &value(line[2])),
            _ => return (builder.finish().expect("a card"), &lines[at..]),
        }
        .expect("a part of a card");
    }
    (builder.finish().expect("a card"), &[])
}

/// Hands on the operation of a line.
fn operation<T>(line: &[&str], run: impl FnOnce(Operation<'_>) -> T) -> T {
    match line[0] {
        "select" => run(Operation::Select(&bytes(line[1]))),
        "get" => run(Operation::Get(number(line[1]))),
        "put" => run(Operation::Put(number(line[1]), &value(line[2]))),
        "send" => run(Operation::Send(&bytes(line[1]))),
        other => panic!("{other}"),
    }
}

fn shown(answer: &Answer) -> String {
    let line = format!("= {} {}", answer.status, digits(&answer.data));
    line.trim_end().to_owned()
}

/// A line of `table` for an object.
fn entry(it: Entry) -> String {
    let value = Some(digits(&it.value)).filter(|it| !it.is_empty());
    let locked = if it.is_locked { " locked" } else { "" };
    format!("  {:X} {}{locked}", it.tag, value.as_deref().unwrap_or("-"))
}

/// What `table` prints of a card, or of that of a session.
macro_rules! table {
    ($of:expr) => {{
        let mut lines = Vec::new();
        for (at, aid) in $of.apps().enumerate() {
            lines.push(format!("app {}", digits(&aid)));
            lines.extend($of.entries(at).map(entry));
        }
        lines
    }};
}

/// A terminal and a card, joined in any way.
trait Ends {
    fn plan(&mut self, _steps: &str, _cut: u16) {}

    fn run(&mut self, operation: Operation<'_>) -> Answer;

    /// The lines for the characters of the last operation: one for each turn of an end.
    fn turns(&self) -> Vec<String> {
        Vec::new()
    }

    fn reset(&mut self);

    fn table(&self) -> Vec<String>;
}

/// What a script prints. Plans are for the operation after them, also if that can't begin.
fn printed(lines: &[Vec<&str>], ends: &mut impl Ends) -> Vec<String> {
    let (mut plans, mut printed, mut is_busy) = (vec![], vec![], false);
    for line in lines {
        match line[0] {
            "plan" => plans.push((line[1].trim_start_matches('-'), line[2])),
            "reset" => {
                ends.reset();
                is_busy = false;
                printed.push("reset".to_owned());
            }
            "table" => printed.extend(ends.table()),
            name if is_busy && name != "send" => {
                plans.clear();
                printed.push("! card busy".to_owned());
            }
            name => {
                for (steps, cut) in plans.drain(..) {
                    ends.plan(steps, cut.parse().expect("a number"));
                }
                let answer = operation(line, |it| ends.run(it));
                is_busy = name == "send" && line[1].starts_with('1') && answer.status.is_ok();
                printed.extend(ends.turns());
                printed.push(shown(&answer));
            }
        }
    }
    printed
}

/// Runs each script of the book with these ends, and compares what it prints.
fn plays<E: Ends>(has_turns: bool, ends: impl Fn(Card) -> E) {
    let plays = book();
    assert!(plays.len() > 40);
    for play in plays {
        let (script, output) = (text(&play), text(&play.with_extension("out")));
        let lines = words(&script);
        let (card, lines) = built(&lines);
        let wanted = output.lines();
        let wanted = wanted.filter(|it| has_turns || !it.starts_with(&['<', '>'][..]));
        let printed = printed(lines, &mut ends(card));
        assert_eq!(printed, wanted.collect::<Vec<_>>(), "{}", play.display());
    }
}

struct Joined(Terminal, Card, Level);

impl Ends for Joined {
    fn run(&mut self, operation: Operation<'_>) -> Answer {
        let Joined(terminal, card, level) = self;
        let mut commands = whole_commands(|command, answer| card.apdu_into(command, answer));
        let answer = match level {
            Level::Apdu => terminal.run(&mut commands, operation),
            _ => terminal.run(card, operation),
        };
        answer.expect("an answer")
    }

    fn reset(&mut self) {
        self.1.reset().expect("a reset");
    }

    fn table(&self) -> Vec<String> {
        table!(self.1)
    }
}

#[test]
fn each_level_has_the_answers_of_the_book() {
    for level in [Level::Tpdu, Level::Apdu] {
        plays(false, |card| {
            Joined(Terminal::new().expect("memory"), card, level)
        });
    }
}

/// A line at T=1 to a card, and the bytes that have arrived.
struct Wire(CardT1, VecDeque<u8>);

impl Line for Wire {
    type Error = Box<dyn std::error::Error>;

    fn send(&mut self, bytes: &[u8]) -> Result<(), Self::Error> {
        let mut room = [0; BLOCK_LIMIT];
        assert!(self.0.receive(bytes)?.is_whole);
        let count = self.0.block_into(&mut room)?.expect("an answer");
        self.1.extend(&room[..count]);
        Ok(())
    }

    fn receive(&mut self, room: &mut [u8], _: Duration) -> Result<usize, Self::Error> {
        let count = self.1.len().min(7);
        for (place, byte) in room.iter_mut().zip(self.1.drain(..count)) {
            *place = byte;
        }
        Ok(count)
    }
}

struct ByBlocks(Terminal, T1Line<Wire>);

impl Ends for ByBlocks {
    fn run(&mut self, operation: Operation<'_>) -> Answer {
        let answer = self.0.run(&mut self.1, operation);
        answer.expect("an answer")
    }

    fn reset(&mut self) {
        self.1.end.reset().expect("a reset");
        self.1.line.0.reset().expect("a reset");
    }

    fn table(&self) -> Vec<String> {
        table!(self.1.line.0.card())
    }
}

#[test]
fn a_line_at_t_1_has_the_answers_of_the_book() {
    let atr = Atr::read(b"\x3B\x80\x01\x81").expect("an answer to reset");
    let (edc, ifsc) = (atr.edc.expect("an EDC"), atr.ifsc.expect("a size"));
    let waits = atr.waits(3_571_200).and_then(|it| it.t1).expect("of T=1");
    plays(false, |card| {
        let wire = Wire(CardT1::new(card).expect("a card"), VecDeque::new());
        let end = T1::new(edc, ifsc, T1Limits::default()).expect("memory");
        let line = T1Line::new(end, waits, wire);
        ByBlocks(Terminal::new().expect("memory"), line)
    });
}

impl Ends for Session {
    fn plan(&mut self, steps: &str, cut: u16) {
        Session::plan(self, steps, cut).expect("a plan");
    }

    fn run(&mut self, operation: Operation<'_>) -> Answer {
        Session::run(self, operation).expect("an answer")
    }

    fn turns(&self) -> Vec<String> {
        let (mut lines, mut last) = (Vec::new(), None);
        for (from, byte) in self.heard().expect("all") {
            if last.replace(from) != Some(from) {
                lines.push(if from == End::Card { "< " } else { "> " }.to_owned());
            }
            *lines.last_mut().expect("a line") += &digits(&[byte]);
        }
        lines
    }

    fn reset(&mut self) {
        Session::reset(self).expect("a reset");
    }

    fn table(&self) -> Vec<String> {
        table!(self)
    }
}

/// A session has plans and all characters.
#[test]
fn a_session_prints_the_book() {
    plays(true, |card| {
        let mut session = Session::start(card).expect("a session");
        session.listen().expect("somebody listens");
        session
    });
}
