//! Long dialogues at T=1, and worked blocks with errors.

use super::echo::Echo;
use crate::tools::{CALLS, Lossy, Quiet, long};
use std::alloc::AllocGlobal;
use std::process::Abort;
use t1_core::spelling::{size, write};
use t1_core::{
    Block, BlockCard, Damage, Edc, End, Ends, Found, Gathered, Line, Settings, Tap, TerminalEnd,
    converse, rooms_for,
};

/// The longest command that the card takes, and the longest response that the terminal takes.
const LIMIT: usize = 70_000;

type Card = Echo<LIMIT>;

fn settings(rt: &impl Abort) -> Settings {
    Settings::new(Edc::Lrc, 254, 16, 1_000, LIMIT).expect(rt, "settings")
}

/// The bytes of a block.
fn written(rt: &(impl Abort + AllocGlobal), block: Block<'_>) -> Vec<u8> {
    let mut bytes = vec![in rt.alloc(); 0; size(block)].expect(rt, "memory");
    write(block, &mut bytes);
    bytes
}

/// Both ends, which have carried nothing.
fn ends(rt: &(impl Abort + AllocGlobal)) -> Ends<Card> {
    let terminal = TerminalEnd::new(rt.alloc(), settings(rt)).expect(rt, "memory");
    let rooms = rooms_for::<Card>(rt.alloc()).expect(rt, "memory");
    Ends::new(terminal, rooms, Card::new())
}

/// The command with this number: of up to 299 bytes, and seldom as long as the card takes, or
/// longer.
fn command(rt: &(impl Abort + AllocGlobal), number: usize) -> Vec<u8> {
    long(
        rt,
        if number % 4_000 < 2 {
            LIMIT + number % 2
        } else {
            number % 300
        },
    )
}

/// One dialogue of thousands of commands. A tap hears each block.
#[test]
fn ends_and_a_tap_last(rt: HostRuntime) {
    let alloc = rt.alloc();
    let mut terminal = TerminalEnd::new(alloc, settings(&rt)).expect(&rt, "memory");
    let rooms = rooms_for::<Card>(alloc).expect(&rt, "memory");
    let mut card = BlockCard::new(rooms, Card::new());
    let (mut tap, mut gathered) = (Tap::new(Edc::Lrc), Gathered::new(alloc));
    for number in 0..CALLS {
        assert!(&rt;
            terminal.begin(&command(&rt, number)).is_ok(),
            "command {number}"
        );
        while let Some(block) = terminal.next() {
            let sent = written(&rt, block);
            let reply = card.take_bytes(&sent).expect(&rt, "memory");
            let answer = written(&rt, card.block(reply));
            for (from, bytes) in [(End::Terminal, &sent), (End::Card, &answer)] {
                assert!(&rt; tap.hear_run(from, bytes) == bytes.len());
                let item = tap.item().expect(&rt, "an item");
                gathered.add(item).expect(&rt, "memory");
            }
            terminal.take_bytes(&answer);
        }
        assert!(&rt; terminal.is_ready() && gathered.bytes() == terminal.response());
    }
}

/// Whether this is the card's response to the command.
fn answers(command: &[u8], response: &[u8]) -> bool {
    if command.len() > LIMIT {
        response == [0x67, 0x00].as_slice()
    } else {
        response == command
    }
}

/// Carries commands one at a time. One of 300 bytes takes 12 exchanges after IFSC 20, and the
/// longest more than 3,000.
fn carried_over(rt: &(impl Abort + AllocGlobal), line: &mut impl Line) {
    let mut ends = ends(rt);
    for number in 0..CALLS {
        let command = command(rt, number);
        let carried = ends.carry(line, &command);
        assert!(rt; carried.is_ok() && ends.is_ready(), "command {number}");
        assert!(rt; answers(&command, ends.response()), "command {number}");
    }
}

/// Carries a list of commands.
fn conversed_over(rt: &(impl Abort + AllocGlobal), line: &mut impl Line) {
    let mut commands = Vec::new(rt.alloc());
    for number in 0..CALLS {
        commands.push(command(rt, number)).expect(rt, "memory");
    }
    let ended = converse(rt.alloc(), Card::new(), line, settings(rt), &commands);
    let ended = ended.expect(rt, "memory");
    assert!(rt; ended.fault.is_none() && ended.answers.len() == CALLS);
    for (command, answer) in commands.iter().zip(&ended.answers) {
        assert!(rt; answers(command, answer));
    }
}

#[test]
fn commands_are_carried(rt: HostRuntime) {
    carried_over(&rt, &mut Quiet::new(rt.alloc()));
}

#[test]
fn a_list_of_commands_is_carried(rt: HostRuntime) {
    conversed_over(&rt, &mut Quiet::new(rt.alloc()));
}

/// Blocks are lost and damaged: each pair of fates, hundreds of times.
#[test]
fn commands_are_carried_over_a_bad_line(rt: HostRuntime) {
    let mut line = Lossy::new(rt.alloc());
    carried_over(&rt, &mut line);
    assert!(&rt; line.count > 2 * CALLS);
}

#[test]
fn a_list_of_commands_is_carried_over_a_bad_line(rt: HostRuntime) {
    let mut line = Lossy::new(rt.alloc());
    conversed_over(&rt, &mut line);
    assert!(&rt; line.count > 2 * CALLS);
}

/// NAD, PCB, LEN and EDC of ISO/IEC 7816-3, 11.3. The CRC is an example of ISO/IEC 14443-3, annex
/// B.
#[test]
fn worked_damage(rt: HostRuntime) {
    for (edc, bytes, damage) in &[
        (Edc::Lrc, b"\x00\x00\x00\x00".as_slice(), None),
        (Edc::Lrc, b"\x00\x00\x00\x01", Some(Damage::Lrc)),
        // SAD 1 and DAD 2; the same twice; a VPP bit.
        (Edc::Lrc, b"\x21\x00\x00\x21", None),
        (Edc::Lrc, b"\x11\x00\x00\x11", Some(Damage::Nad)),
        (Edc::Lrc, b"\x08\x00\x00\x08", Some(Damage::Nad)),
        (Edc::Lrc, b"\x00\x10\x00\x10", Some(Damage::Pcb)),
        (Edc::Lrc, b"\x00\x80\x01\x05\x84", Some(Damage::Len)),
        (Edc::Crc, b"\x00\x00\x00\xCC\xC6", None),
        (Edc::Crc, b"\x00\x00\x00\xC6\xCC", Some(Damage::Crc)),
    ] {
        let mut tap = Tap::new(*edc);
        assert!(&rt; tap.hear_run(End::Terminal, *bytes) == bytes.len());
        let found = match tap.item().expect(&rt, "an item").found {
            Found::Valid(_) => None,
            Found::Damaged(damage) => Some(damage),
            Found::Cut => unreachable!(),
        };
        assert!(&rt; found == *damage, "{bytes:?}");
    }
}
