//! Tests of `command_card`: memory that is there, with responses from inside and from outside, and
//! worked TPDUs.

use crate::tools::{CALLS, long};
use apdu_core::{Command, Header, Status};
use command_card::{
    AppletOf, CommandCard, Copied, Directions, Eager, Given, GivenApplet, decide, give, respond_to,
};
use std::alloc::{AllocError, AllocGlobal, Global};
use std::process::Abort;
use t0_core::{CardEnd, Gather, Plan, Plans, TpduCard};
use t1_core::spelling::{size, write};
use t1_core::{Applet, Block, Control, PatientCard, RESPONSE_ROOM, Receiver, rooms_for};

/// Counts its commands. Each response has as many bytes as P1-P2 state, and the status is `9000`,
/// or `6A82` without a byte. INS `10` takes data, every other INS takes none. INS `EE` runs out of
/// memory.
#[derive(Drop)]
struct Counter {
    count: u32,
}

impl Eager for Counter {
    // Ghost members must be there. Nothing proves these.
    ghost State = { Unit {0} };

    ghost standing = { λ _. tt };

    ghost takes = { λ _ _. true };

    ghost Does = { λ _ _ _. Unit {0} };

    ghost after_reset = { λ _. tt };

    fn takes_data(&self, header: Header) -> bool {
        header.ins == 0x10
    }

    fn carry_out(
        &mut self,
        command: Command<'_>,
        response: &mut Vec<u8>,
    ) -> Result<Status, AllocError> {
        let header = command.header();
        if header.ins == 0xEE {
            return Err(AllocError);
        }
        self.count += 1;
        response.resize(size_of(header), (self.count % 256) as u8)?;
        Ok(status_of(header))
    }

    fn copy(&mut self) -> Result<Counter, AllocError> {
        Ok(Counter { count: self.count })
    }

    fn reset(&mut self) {}
}

fn size_of(header: Header) -> usize {
    usize::from(header.p1) * 256 + usize::from(header.p2)
}

fn status_of(header: Header) -> Status {
    let (sw1, sw2) = if size_of(header) == 0 {
        (0x6A, 0x82)
    } else {
        (0x90, 0x00)
    };
    Status::new(sw1, sw2).unwrap()
}

fn counting(alloc: Global) -> CardEnd<CommandCard<Copied<Counter>>> {
    let counter = Copied::new(Counter { count: 0 });
    CardEnd::new(CommandCard::new(alloc, counter))
}

/// Data go to the card under INS `10` alone.
fn given(alloc: Global) -> CardEnd<CommandCard<Given>> {
    let mut table = [0; 32];
    table[2] = 1;
    let given = Given::new(alloc, Directions::Table(table));
    CardEnd::new(CommandCard::new(alloc, given))
}

/// Carries out a TPDU. Returns the number of received bytes, and the status word.
fn sent<C: TpduCard>(
    rt: &(impl Abort + AllocGlobal),
    end: &mut CardEnd<C>,
    cut: u16,
    tpdu: &[u8],
) -> (usize, u16) {
    let plans = [Plan::new(Vec::new(rt.alloc()), cut).expect(rt, "a plan")];
    let mut gather = Gather::with_room(rt.alloc(), 256).expect(rt, "memory");
    let status = end.tpdu(tpdu, &mut Plans::over(&plans), &mut gather);
    (gather.bytes().len(), status.expect(rt, "a status").word())
}

/// A TPDU, its cut, what `sent` returns, and the count afterwards (docs/RULES.md).
const ROWS: &[(&'static [u8], u16, (usize, u16), u32)] = &[
    // As many bytes as there are.
    (&[0, 0x20, 0, 3, 3], 256, (3, 0x9000), 1),
    // More than there are: 6CXX. The repetition is no new command, the next one is.
    (&[0, 0x20, 0, 3, 0], 256, (0, 0x6C03), 2),
    (&[0, 0x20, 0, 3, 3], 256, (3, 0x9000), 2),
    (&[0, 0x20, 0, 3, 3], 256, (3, 0x9000), 3),
    // Fewer: 61XX under the cut. GET RESPONSE in any class; 6CXX keeps what waits.
    (&[0, 0x20, 0, 9, 2], 4, (2, 0x6104), 4),
    (&[0xA0, 0xC0, 0, 0, 4], 256, (4, 0x6103), 4),
    (&[0, 0xC0, 0, 0, 0], 256, (0, 0x6C03), 4),
    (&[0, 0xC0, 0, 0, 3], 256, (3, 0x9000), 4),
    (&[0, 0xC0, 0, 0, 0], 256, (0, 0x6985), 4),
    // Data to the card, with an empty response and with one of 512 bytes.
    (&[0, 0x10, 0, 0, 2, 7, 7], 256, (0, 0x6A82), 5),
    (&[0, 0x10, 2, 0, 2, 7, 7], 256, (0, 0x6100), 6),
    (&[0, 0xC0, 0, 0, 0], 256, (256, 0x6100), 6),
    (&[0, 0xC0, 0, 0, 0], 256, (256, 0x9000), 6),
    // Another command drops what waits.
    (&[0, 0x20, 0, 9, 2], 256, (2, 0x6107), 7),
    (&[0, 0x60, 0, 0, 0], 256, (0, 0x6D00), 7),
    (&[0, 0xC0, 0, 0, 7], 256, (0, 0x6985), 7),
    // No memory, and a response above 4,096 bytes: the application is unchanged.
    (&[0, 0xEE, 0, 1, 1], 256, (0, 0x6581), 7),
    (&[0, 0x20, 0x10, 1, 1], 256, (0, 0x6F00), 7),
];

#[test]
fn worked_tpdus(rt: HostRuntime) {
    let mut end = counting(rt.alloc());
    for (tpdu, cut, wanted, count) in ROWS {
        let came = sent(&rt, &mut end, *cut, *tpdu);
        assert!(&rt; came == *wanted, "{tpdu:?}: {came:?}");
        assert!(&rt;
            end.card().application().current().count == *count,
            "{tpdu:?}"
        );
    }
}

/// The bytes of the command with this number: every second takes data, of up to 255 bytes. The
/// responses have up to 299 bytes, and some up to 4,096.
fn command(rt: &(impl Abort + AllocGlobal), number: usize) -> Vec<u8> {
    let size = if number % 15 == 1 {
        4_096 - number / 15
    } else {
        number % 300
    };
    let takes_data = number % 2 == 1;
    let header = Header {
        cla: 0x00,
        ins: if takes_data { 0x10 } else { 0x20 },
        p1: (size / 256) as u8,
        p2: (size % 256) as u8,
    };
    let data = long(rt, if takes_data { number / 2 % 255 + 1 } else { 0 });
    let command = Command::new(header, &data, Some(256)).expect(rt, "a command");
    let mut bytes = Vec::new(rt.alloc());
    command.write(&mut bytes).expect(rt, "memory");
    bytes
}

/// The same as a TPDU: in case 4 without its Le.
fn tpdu(bytes: &[u8]) -> &[u8] {
    &bytes[..bytes.len() - usize::from(bytes.len() > 5)]
}

/// Gives the response that the counter has.
fn give_to(rt: &(impl Abort + AllocGlobal), end: &mut CardEnd<CommandCard<Given>>, bytes: &[u8]) {
    let command = Command::read(bytes).expect(rt, "a command");
    let header = command.header();
    let given = give(end, &long(rt, size_of(header)), status_of(header));
    assert!(rt; given.is_ok(), "{header:?}");
}

/// The third card asks for each command which way its data go.
#[test]
fn cards_carry_out_tpdus(rt: HostRuntime) {
    let alloc = rt.alloc();
    let (mut counting, mut given) = (counting(alloc), given(alloc));
    let asking = Given::new(alloc, Directions::Unknown);
    let mut asking = CardEnd::new(CommandCard::new(alloc, asking));
    for number in 0..CALLS {
        let bytes = command(&rt, number);
        let (_, status) = sent(&rt, &mut counting, 256, tpdu(&bytes));
        assert!(&rt; status != 0x6581, "command {number}");
        assert!(&rt; decide(&mut asking, number % 2 == 1), "command {number}");
        for end in [&mut given, &mut asking] {
            give_to(&rt, end, &bytes);
            let (_, same) = sent(&rt, end, 256, tpdu(&bytes));
            assert!(&rt; status == same, "command {number}");
        }
    }
}

/// Bytes in no form of a command, or with an invalid INS, and their response.
const NO_COMMANDS: [(&[u8], [u8; 2]); 4] = [
    (b"", [0x67, 0x00]),
    (b"\x00\x10\x00", [0x67, 0x00]),
    (b"\x00\x10\x00\x00\x02\x41", [0x67, 0x00]),
    (b"\x00\x60\x00\x00", [0x6D, 0x00]),
];

/// Whether the card answers bytes that are no command, and a command that is too long.
fn answers_no_command<C: Applet>(card: &mut C, response: &mut Vec<u8>) -> bool {
    for (bytes, status) in &NO_COMMANDS {
        if card.carry_out(bytes, response).is_err() || response.as_slice() != status.as_slice() {
            return false;
        }
    }
    card.too_long(response).is_ok() && response.as_slice() == [0x67, 0x00].as_slice()
}

/// Whether the card carries out a command, and has memory for it.
fn is_carried_out<C: Applet>(card: &mut C, bytes: &[u8], response: &mut Vec<u8>) -> bool {
    card.carry_out(bytes, response).is_ok() && !response.ends_with(&[0x65, 0x81])
}

#[test]
fn cards_carry_out_whole_commands(rt: HostRuntime) {
    let alloc = rt.alloc();
    let mut card = AppletOf::new(alloc, Copied::new(Counter { count: 0 }));
    let mut applet = GivenApplet { end: given(alloc) };
    let mut end = given(alloc);
    let mut response = Vec::with_capacity(alloc, RESPONSE_ROOM).expect(&rt, "memory");
    for number in 0..CALLS {
        let bytes = command(&rt, number);
        assert!(&rt;
            is_carried_out(&mut card, &bytes, &mut response),
            "command {number}"
        );
        give_to(&rt, &mut applet.end, &bytes);
        assert!(&rt;
            is_carried_out(&mut applet, &bytes, &mut response),
            "command {number}"
        );
        give_to(&rt, &mut end, &bytes);
        let command = Command::read(&bytes).expect(&rt, "a command");
        let done = respond_to(&mut end, command.header(), command.data(), command.le());
        assert!(&rt; done.is_ok(), "command {number}");
        assert!(&rt; answers_no_command(&mut card, &mut response));
        assert!(&rt; answers_no_command(&mut applet, &mut response));
    }
}

/// The card takes a block. Returns whether it replies.
fn replies(
    rt: &(impl Abort + AllocGlobal),
    card: &mut PatientCard<GivenApplet>,
    block: Block<'_>,
) -> bool {
    let mut receiver = Receiver::new();
    let mut bytes = vec![in rt.alloc(); 0; size(block)].expect(rt, "memory");
    write(block, &mut bytes);
    receiver.take_bytes(&bytes);
    card.take(&mut receiver).is_some()
}

/// A command waits for its response, which then comes, and which S(ABORT request) drops. Commands
/// of more than 254 bytes are in two blocks.
#[test]
fn a_patient_card_replies(rt: HostRuntime) {
    let end = given(rt.alloc());
    let rooms = rooms_for::<GivenApplet>(rt.alloc()).expect(&rt, "memory");
    let mut card = PatientCard::new(rooms, GivenApplet { end });
    let mut due = false;
    for number in 0..CALLS {
        let bytes = command(&rt, number);
        let (first, last) = bytes.split_at(if bytes.len() > 254 { 254 } else { 0 });
        for (info, more) in [(first, true), (last, false)] {
            let block = Block::Information {
                number: due,
                more,
                info,
            };
            if more && info.is_empty() {
                continue;
            }
            assert!(&rt; replies(&rt, &mut card, block) == more, "command {number}");
            due = !due;
        }
        card.with_applet(|applet| give_to(&rt, &mut applet.end, &bytes));
        assert!(&rt; card.again().is_some(), "command {number}");
        assert!(&rt; replies(&rt, &mut card, Block::Request(Control::Abort)));
    }
}
