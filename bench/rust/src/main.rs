//! The operations of `c_session.c` through the crate for Rust, with the same words. The first is a
//! way: `session`, `heard`, `buffers` or `characters`. A number after it is how often `repeat`
//! carries out each operation, for a profiler.

use galliumtoad::{Card, CardBuilder, Operation, Session, Stop, Terminal, Turn, RESPONSE_LIMIT};
use std::time::Instant;

const AID: [u8; 7] = [0xA0, 0x00, 0x00, 0x00, 0x03, 0x10, 0x10];
const CONTENT: u8 = 0x42;
const BUFFER: usize = 512;

struct Load {
    name: &'static str,
    is_put: bool,
    tag: u32,
    size: usize,
    characters: usize,
    times: u32,
}

/// The object 5F20 has 3 bytes, 5F50 has 20, and 50 has the longest value.
const LOADS: [Load; 5] = [
    load("get of 3 bytes", false, 0x5F20, 3, 21, 1_000_000),
    load("get of 20 bytes", false, 0x5F50, 20, 38, 500_000),
    load("put of 20 bytes", true, 0x5F50, 20, 28, 1_000_000),
    load("put of 8,192 bytes", true, 0x50, 8192, 8456, 2000),
    load("get of 8,192 bytes", false, 0x50, 8192, 8460, 2000),
];

const fn load(
    name: &'static str,
    is_put: bool,
    tag: u32,
    size: usize,
    characters: usize,
    times: u32,
) -> Load {
    Load {
        name,
        is_put,
        tag,
        size,
        characters,
        times,
    }
}

fn card() -> Card {
    let mut builder = CardBuilder::new().expect("memory");
    builder.app(&AID).expect("an application");
    for load in [&LOADS[0], &LOADS[1], &LOADS[3]] {
        let value = vec![CONTENT; load.size];
        builder.object(load.tag, &value).expect("an object");
    }
    builder.finish().expect("a card")
}

/// The ends that carry out operations.
enum Way {
    Session(Session),
    Buffers(Terminal, Card),
    Characters(Terminal, Card),
}

impl Way {
    fn of(name: &str) -> Way {
        let terminal = || Terminal::new().expect("memory");
        match name {
            "session" => Way::Session(Session::start(card()).expect("a session")),
            "heard" => {
                let mut session = Session::start(card()).expect("a session");
                session.listen().expect("somebody listens");
                Way::Session(session)
            }
            "buffers" => Way::Buffers(terminal(), card()),
            "characters" => Way::Characters(terminal(), card()),
            _ => panic!("one word: session, heard, buffers or characters"),
        }
    }

    /// Carries out an operation. The data of its answer are in `room`, or in their own memory.
    fn operate(&mut self, operation: Operation<'_>, room: &mut [u8], check: impl Fn(&[u8])) {
        let terminal = match self {
            Way::Session(session) => return check(&by_session(session, operation)),
            Way::Buffers(terminal, card) => {
                terminal.begin(operation).expect("an operation");
                by_buffers(terminal, card);
                terminal
            }
            Way::Characters(terminal, card) => {
                terminal.begin(operation).expect("an operation");
                by_characters(terminal, card);
                terminal
            }
        };
        let answer = terminal.answer_into(room).expect("an answer");
        assert!(answer.status.is_ok());
        check(&room[..answer.count]);
    }

    fn carry_out(&mut self, load: &Load, value: &[u8], room: &mut [u8]) {
        let head = if load.size > 255 { 4 } else { 3 };
        let (operation, wanted) = if load.is_put {
            (Operation::Put(load.tag, value), 0)
        } else {
            (Operation::Get(load.tag), head + load.size)
        };
        self.operate(operation, room, |data| {
            assert!(data.len() == wanted && data.last().map_or(true, |byte| *byte == CONTENT));
        });
    }
}

fn by_session(session: &mut Session, operation: Operation<'_>) -> Vec<u8> {
    let answer = session.run(operation).expect("an operation");
    assert!(answer.status.is_ok());
    answer.data
}

fn by_buffers(terminal: &mut Terminal, card: &mut Card) {
    let mut room = [0; BUFFER];
    loop {
        let sent = terminal.send_bytes(&mut room).expect("an operation");
        card.receive_bytes(&room[..sent.count])
            .expect("the card listens");
        if sent.stop == Stop::Done {
            return;
        }
        let sent = card.send_bytes(&mut room).expect("the card sends");
        terminal
            .receive_bytes(&room[..sent.count])
            .expect("the terminal listens");
    }
}

fn by_characters(terminal: &mut Terminal, card: &mut Card) {
    loop {
        match terminal.turn().expect("an operation") {
            Turn::Sends(byte) => card.take(byte).expect("the card listens"),
            Turn::Listens => match card.turn().expect("the card sends") {
                Turn::Sends(byte) => terminal.take(byte).expect("the terminal listens"),
                _ => panic!("both wait"),
            },
            Turn::Done => return,
        }
    }
}

/// Carries out `times` operations. It is a separate function, which a profiler finds by its name.
#[no_mangle]
#[inline(never)]
extern "Rust" fn repeat(way: &mut Way, load: &Load, value: &[u8], room: &mut [u8], times: u32) {
    for _ in 0..times {
        way.carry_out(load, value, room);
    }
}

fn main() {
    let mut words = std::env::args().skip(1);
    let mut way = Way::of(&words.next().unwrap_or_default());
    let times = words.next().map(|word| word.parse().expect("a number"));
    let mut room = vec![0; RESPONSE_LIMIT];
    way.operate(Operation::Select(&AID), &mut room, |data| {
        assert_eq!(data.len(), 11)
    });
    for load in &LOADS {
        let value = vec![CONTENT; load.size];
        for _ in 0..times.unwrap_or(1) {
            way.carry_out(load, &value, &mut room);
        }
        let start = Instant::now();
        repeat(
            &mut way,
            load,
            &value,
            &mut room,
            times.unwrap_or(load.times),
        );
        if times.is_none() {
            let each = f64::from(load.times) * load.characters as f64;
            let nanoseconds = start.elapsed().as_secs_f64() * 1e9 / each;
            println!("{}: {} characters", load.name, load.characters);
            println!("  {nanoseconds:.2} ns a character");
        }
    }
}
