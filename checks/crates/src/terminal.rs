//! Tests of `card_terminal`, `apdu_terminal` and `t1_terminal`: memory that is there, or is
//! refused.

use crate::tools::{CALLS, Lossy, Quiet, long, numbered, serves_after_refusals};
use apdu_core::{Command, Header, Status};
use apdu_terminal::{ApduExchange, ApduTerminal, apdu, begin, respond};
use card_terminal::{
    Answers, BeginFault, Bytes, Exchange, Op, OwnedExchange, RESPONSE_LIMIT, Session, Terminal,
};
use object_card::{Aid, CardBuilder, DataCard, ObjectCard};
use std::alloc::{AllocGlobal, Allocator, Global};
use std::process::Abort;
use t0_core::{CardEnd, Plans, Silent};
use t1_core::{Applet, Edc, Line, RESPONSE_ROOM, Settings};
use t1_terminal::DataApplet;

fn aid(rt: &impl Abort) -> Aid {
    Aid::new(&[0xA0, 0x00, 0x00, 0x00, 0x01]).expect(rt, "an identifier")
}

/// The end of a card with one application.
fn end(rt: &(impl Abort + AllocGlobal)) -> CardEnd<ObjectCard> {
    let mut builder = CardBuilder::new(rt.alloc());
    builder.app(aid(rt)).expect(rt, "memory");
    CardEnd::new(builder.finish().expect(rt, "memory"))
}

/// The size of the value in this call: all up to 255, some to the limit of a card, and some that no
/// card takes.
fn size(call: usize) -> usize {
    match call % 500 {
        2 => 8_192 - call / 500,
        5 => 70_000,
        _ => call % 256,
    }
}

/// Selects, reads and stores in turn.
fn op<A: Allocator>(rt: &impl Abort, memory: A, call: usize) -> Op<A> {
    let tag = numbered(rt, call % 60 + 1);
    match call % 3 {
        0 => Op::Select(aid(rt)),
        1 => Op::Get(tag),
        _ => {
            let value = vec![in memory; 0x41; size(call)].expect(rt, "memory");
            Op::Put(tag, Bytes::new(value))
        }
    }
}

/// All operations of a long session.
fn ops(rt: &(impl Abort + AllocGlobal)) -> Vec<Op> {
    let mut ops = Vec::new(rt.alloc());
    for call in 0..CALLS {
        ops.push(op(rt, rt.alloc(), call)).expect(rt, "memory");
    }
    ops
}

/// A PUT DATA of up to 255 bytes, with each form of Le, on which terminal and card agree. Without
/// data it is a GET DATA.
fn command(rt: &impl Abort, data: &'static [u8; 255], call: usize) -> Command<'static> {
    let content = &data[..call % 256];
    let (ins, le) = if content.is_empty() {
        (0xCA, Some(256))
    } else {
        (0xDA, [None, Some(1), Some(256)][call % 3])
    };
    let header = Header {
        cla: 0x00,
        ins,
        p1: 0xDF,
        p2: 0x01,
    };
    Command::new(header, content, le).expect(rt, "a command")
}

static DATA: [u8; 255] = [0x41; 255];

/// Commands of each size, and each room for the response.
#[test]
fn exchanges_start(rt: HostRuntime) {
    let alloc = rt.alloc();
    for room in 0..=RESPONSE_LIMIT {
        let due = || command(&rt, &DATA, room);
        assert!(&rt; Exchange::start(alloc, due()).is_ok(), "{room}");
        assert!(&rt;
            Exchange::start_within(alloc, due(), room).is_ok(),
            "{room}"
        );
        assert!(&rt; OwnedExchange::start(alloc, due()).is_ok(), "{room}");
        assert!(&rt;
            OwnedExchange::start_within(alloc, due(), room).is_ok(),
            "{room}"
        );
        assert!(&rt; ApduExchange::start(alloc, due()).is_ok(), "{room}");
        assert!(&rt;
            ApduExchange::start_within(alloc, due(), room).is_ok(),
            "{room}"
        );
    }
}

/// One session with thousands of operations, each by each call.
#[test]
fn a_session_lasts(rt: HostRuntime) {
    let alloc = rt.alloc();
    let mut plans = Plans::<Global>::over(&[]);
    let mut session = Session::new(end(&rt));
    let mut out = Answers::new(alloc);
    assert!(&rt;
        session
            .run(alloc, &ops(&rt), &mut plans, &mut Silent, &mut out)
            .is_ok()
    );
    for call in 0..CALLS {
        let one = [op(&rt, alloc, call)];
        let run = session.run(alloc, &one, &mut plans, &mut Silent, &mut out);
        assert!(&rt; run.is_ok(), "operation {call}");
        let answer = session.operate(alloc, &one[0], &mut plans, &mut Silent);
        assert!(&rt; answer.is_ok(), "operation {call}");
        let due = command(&rt, &DATA, call);
        assert!(&rt;
            session
                .transmit(alloc, due, &mut plans, &mut Silent)
                .is_ok(),
            "{call}"
        );
        let due = command(&rt, &DATA, call);
        assert!(&rt;
            session.send(alloc, due, &mut plans, &mut Silent).is_ok(),
            "{call}"
        );
    }
    assert!(&rt; out.len() == 2 * CALLS);
}

/// The same by whole commands.
#[test]
fn whole_commands_last(rt: HostRuntime) {
    let alloc = rt.alloc();
    let mut end = end(&rt);
    let mut out = Answers::new(alloc);
    assert!(&rt; apdu_terminal::run(alloc, &mut end, &ops(&rt), &mut out).is_ok());
    for call in 0..CALLS {
        let one = [op(&rt, alloc, call)];
        let run = apdu_terminal::run(alloc, &mut end, &one, &mut out);
        assert!(&rt; run.is_ok(), "operation {call}");
        assert!(&rt;
            apdu(alloc, &mut end, command(&rt, &DATA, call)).is_ok(),
            "{call}"
        );
        assert!(&rt;
            respond(alloc, &mut end, command(&rt, &DATA, call)).is_ok(),
            "{call}"
        );
    }
}

/// The same over T=1: all operations have their answers. Returns the card.
fn operated_over(rt: &(impl Abort + AllocGlobal), line: &mut impl Line) -> DataApplet<ObjectCard> {
    let alloc = rt.alloc();
    let settings = Settings::new(Edc::Lrc, 254, 16, 1_000, 16_386).expect(rt, "settings");
    let card = DataApplet::new(alloc, end(rt));
    let ended = t1_terminal::run(alloc, card, line, settings, &ops(rt)).expect(rt, "memory");
    assert!(rt; ended.fault.is_none());
    ended.card
}

/// Blocks are lost and damaged.
#[test]
fn operations_over_a_bad_line_last(rt: HostRuntime) {
    let mut line = Lossy::new(rt.alloc());
    operated_over(&rt, &mut line);
    assert!(&rt; line.count > 2 * CALLS);
}

#[test]
fn operations_over_a_line_last(rt: HostRuntime) {
    let alloc = rt.alloc();
    let mut card = operated_over(&rt, &mut Quiet::new(alloc));
    let mut response = Vec::with_capacity(alloc, RESPONSE_ROOM).expect(&rt, "memory");
    for call in 0..CALLS {
        let mut bytes = Vec::new(alloc);
        command(&rt, &DATA, call)
            .write(&mut bytes)
            .expect(&rt, "memory");
        assert!(&rt;
            card.carry_out(&bytes, &mut response).is_ok(),
            "command {call}"
        );
        assert!(&rt;
            card.carry_out(&[0x00], &mut response).is_ok()
                && response.as_slice() == [0x67, 0x00].as_slice(),
            "command {call}"
        );
        assert!(&rt;
            card.too_long(&mut response).is_ok() && response.as_slice() == [0x67, 0x00].as_slice(),
            "command {call}"
        );
    }
}

/// A call that begins an operation.
#[derive(Clone, Copy)]
enum Way {
    Select,
    Get,
    Put,
    Send,
}

const WAYS: [Way; 4] = [Way::Select, Way::Get, Way::Put, Way::Send];

/// Begins an operation at a terminal of either kind.
macro_rules! begins {
    ($terminal:expr, $rt:expr, $way:expr, $call:expr) => {
        match $way {
            Way::Select => $terminal.select(&aid($rt)),
            Way::Get => $terminal.get(numbered($rt, 1)),
            Way::Put => $terminal.put(numbered($rt, 1), &long($rt, size($call))),
            Way::Send => $terminal.send(command($rt, &DATA, $call)),
        }
    };
}

/// Both terminals begin thousands of operations in each way. After some they rest, after some they
/// are reset, and some they end.
#[test]
fn terminals_begin(rt: HostRuntime) {
    let mut terminal = Terminal::new(rt.alloc());
    let mut whole = ApduTerminal::new(rt.alloc());
    let ok = Status::new(0x90, 0x00).expect(&rt, "a status");
    for call in 0..CALLS {
        for way in &WAYS {
            assert!(&rt;
                begins!(terminal, &rt, way, call) == Ok(()),
                "operation {call}"
            );
            let unsent = terminal.unsent().expect(&rt, "an operation");
            assert!(&rt; whole.begin(unsent).is_ok(), "operation {call}");
            end_whole(&rt, &mut whole, ok);
            assert!(&rt;
                begins!(whole, &rt, way, call) == Ok(()),
                "operation {call}"
            );
            match call % 3 {
                0 => terminal.rest(),
                1 => terminal.reset(),
                _ => {
                    while terminal.tpdu().is_some() {
                        assert!(&rt; terminal.answered(&[], ok).is_ok());
                    }
                }
            }
            if call % 3 == 1 {
                whole.reset();
            } else {
                end_whole(&rt, &mut whole, ok);
            }
            let mut fresh = ApduTerminal::new(rt.alloc());
            assert!(&rt; begin(&mut fresh, &op(&rt, rt.alloc(), call)).is_ok());
        }
    }
}

/// Ends an operation by the status of each of its commands.
fn end_whole(rt: &impl Abort, whole: &mut ApduTerminal, ok: Status) {
    while whole.apdu().is_some() {
        assert!(rt; whole.responded(&[], ok).is_ok());
    }
}

#[test]
fn terminals_have_any_room(rt: HostRuntime) {
    for room in 0..=RESPONSE_LIMIT {
        let terminal = Terminal::new_within(rt.alloc(), room);
        let mut terminal = terminal.ok().expect(&rt, "a terminal");
        assert!(&rt; terminal.get(numbered(&rt, 1)).is_ok(), "{room}");
        let whole = ApduTerminal::new_within(rt.alloc(), room);
        let mut whole = whole.ok().expect(&rt, "a terminal");
        assert!(&rt; whole.get(numbered(&rt, 1)).is_ok(), "{room}");
    }
}

/// Stores longer and longer values. If memory for one is refused, the next operation succeeds that
/// needs no more than the last: it uses the same room. Evaluates to whether memory sufficed.
macro_rules! grows {
    ($terminal:expr, $rt:expr, $due:ident, $end:ident) => {{
        let mut terminal = $terminal.ok().expect($rt, "a terminal");
        let ok = Status::new(0x90, 0x00).expect($rt, "a status");
        let mut last = None;
        for size in [0, 16, 300, 5_000] {
            if terminal.put(numbered($rt, 1), &long($rt, size)).is_err() {
                assert!($rt; last.is_none() || terminal.get(numbered($rt, 1)).is_ok());
                return false;
            }
            while terminal.$due().is_some() {
                assert!($rt; terminal.$end(&[], ok).is_ok());
            }
            last = Some(size);
        }
        true
    }};
}

/// The memory for a response, and for a copy of the data, is refused in turn.
#[test]
fn terminals_without_memory(rt: HostRuntime) {
    serves_after_refusals(&rt, 0, 64, |heap| {
        grows!(Terminal::new_within(heap, 64), &rt, tpdu, answered)
    });
    serves_after_refusals(&rt, 0, 64, |heap| {
        grows!(ApduTerminal::new_within(heap, 64), &rt, apdu, responded)
    });
    for way in &WAYS {
        serves_after_refusals(&rt, 0, 512, |heap| {
            let begun = begins!(Terminal::new(heap), &rt, way, 255);
            assert!(&rt; matches!(begun, Ok(()) | Err(BeginFault::OutOfMemory)));
            let whole = begins!(ApduTerminal::new(heap), &rt, way, 255);
            begun.is_ok() && whole.is_ok()
        });
    }
}

#[test]
fn exchanges_without_memory(rt: HostRuntime) {
    serves_after_refusals(&rt, 0, 512, |heap| {
        Exchange::start(heap, command(&rt, &DATA, 255)).is_ok()
    });
    serves_after_refusals(&rt, 0, 512, |heap| {
        ApduExchange::start(heap, command(&rt, &DATA, 255)).is_ok()
    });
}

/// Memory for a response, or for one more answer, runs out before each of some operations. The card
/// has carried out those before it, and the list continues once there is memory. An answer frees
/// the room that its data don't take.
#[test]
fn lists_without_memory(rt: HostRuntime) {
    let alloc = rt.alloc();
    let ops = [
        op(&rt, alloc, 0),
        op(&rt, alloc, 255),
        op(&rt, alloc, 1),
        op(&rt, alloc, 257),
    ];
    for is_whole in &[false, true] {
        serves_after_refusals(&rt, 0, 256, |heap| {
            let (mut session, mut whole) = (Session::new(end(&rt)), end(&rt));
            let mut plans = Plans::<Global>::over(&[]);
            let mut out = Answers::new(heap);
            let is_run = if *is_whole {
                apdu_terminal::run(heap, &mut whole, &ops, &mut out).is_ok()
            } else {
                session
                    .run(heap, &ops, &mut plans, &mut Silent, &mut out)
                    .is_ok()
            };
            let (done, mut rest) = (out.len(), Answers::new(alloc));
            let goes_on = if *is_whole {
                apdu_terminal::run(alloc, &mut whole, &ops[done..], &mut rest).is_ok()
            } else {
                session
                    .run(alloc, &ops[done..], &mut plans, &mut Silent, &mut rest)
                    .is_ok()
            };
            assert!(&rt; goes_on && rest.len() == ops.len() - done);
            assert!(&rt; !is_run || heap.size() < 2 * RESPONSE_LIMIT);
            is_run
        });
    }
}
