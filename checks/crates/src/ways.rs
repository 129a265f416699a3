//! Tests of `as_called`: random commands, beside an application that is called directly.

use apdu_core::{Command, Header, Status};
use as_called::{Direct, Link, OverT0, OverT1, SendFault, send};
use command_card::{CommandCard, Copied, Eager};
use std::alloc::{AllocError, AllocGlobal};
use std::process::Abort;
use t0_core::{CardEnd, Plan, Plans, Silent};
use t1_core::{Edc, Fate, Fates, Line, Outcome, Settings};

/// How many random commands the test makes.
const COMMANDS: usize = 3_000;

/// Numbers that look random, the same in each run.
#[derive(Drop)]
struct Numbers {
    state: u64,
}

impl Numbers {
    fn next(&mut self, below: usize) -> usize {
        self.state = self
            .state
            .wrapping_mul(6_364_136_223_846_793_005)
            .wrapping_add(1_442_695_040_888_963_407);
        ((self.state >> 33) as usize) % below
    }
}

/// An application that tells all that it was called with. Bit 0 of INS: data follow to the card. P1
/// and P2 state how long the response is; it repeats the number of calls, the header and the data.
#[derive(Drop)]
struct Teller {
    calls: u32,
}

/// The status of a response, by its length.
fn status(length: usize) -> Status {
    let words = [
        (0x90, 0x00),
        (0x6A, 0x82),
        (0x63, 0xC1),
        (0x62, 0x83),
        (0x91, 0x0F),
    ];
    let (sw1, sw2) = words[length % words.len()];
    Status::new(sw1, sw2).unwrap()
}

/// One byte of a response.
fn byte(calls: u32, command: &Command<'_>, at: usize) -> u8 {
    let Header { cla, ins, p1, p2 } = command.header();
    let data = command.data();
    let le = command.le().unwrap_or(0);
    let of_data = if data.is_empty() {
        0
    } else {
        data[at % data.len()]
    };
    let of_header = [cla, ins, p1, p2, (le % 256) as u8, data.len() as u8][at % 6];
    ((calls % 256) as u8)
        .wrapping_add(of_header)
        .wrapping_add(of_data)
        .wrapping_add((at / 256) as u8)
}

fn response_length(header: Header) -> usize {
    usize::from(header.p1 % 20) * 256 + usize::from(header.p2)
}

impl Eager for Teller {
    // Ghost members must be there. Nothing proves these.
    ghost use Rattle.std.specs.Prelude.{ℕ, ◌≡◌, true};

    ghost State = { ℕ };

    ghost standing = { λ c. c.calls };

    ghost takes = { λ count h. true };

    ghost Does = { λ old did new. new ≡ old };

    ghost after_reset = { λ count. count };

    fn takes_data(&self, header: Header) -> bool {
        header.ins % 2 == 1
    }

    fn carry_out(
        &mut self,
        command: Command<'_>,
        response: &mut Vec<u8>,
    ) -> Result<Status, AllocError> {
        if command.header().cla == 0x0E {
            return Err(AllocError);
        }
        self.calls += 1;
        let length = response_length(command.header());
        for at in 0..length {
            response.push(byte(self.calls, &command, at))?;
        }
        Ok(status(length))
    }

    fn copy(&mut self) -> Result<Teller, AllocError> {
        Ok(Teller { calls: self.calls })
    }

    fn reset(&mut self) {}
}

/// What waits in the card, by the rules: the bytes and the status after them.
#[derive(Drop)]
struct Beside {
    calls: u32,
    left: Vec<u8>,
    own: Status,
}

/// An answer: data and status. The announced number of a `61XX` may differ by line.
#[derive(Drop)]
struct Reply {
    data: Vec<u8>,
    status: (u8, u8),
}

fn word(status: Status) -> (u8, u8) {
    (status.sw1(), status.sw2())
}

fn copy(rt: &(impl Abort + AllocGlobal), bytes: &[u8]) -> Vec<u8> {
    let mut all = Vec::new(rt.alloc());
    all.extend_from_slice(bytes).expect(rt, "memory");
    all
}

/// The first Le bytes, and the rest: all for Le 256, none without Le.
fn wanted(length: usize, le: Option<u16>) -> usize {
    match le {
        None => 0,
        Some(256) => length,
        Some(le) => length.min(usize::from(le)),
    }
}

impl Beside {
    fn new(rt: &impl AllocGlobal) -> Beside {
        Beside {
            calls: 0,
            left: Vec::new(rt.alloc()),
            own: Status::new(0x90, 0x00).unwrap(),
        }
    }

    /// Hands out the first bytes of a response, and keeps the rest.
    fn hand_out(
        &mut self,
        rt: &(impl Abort + AllocGlobal),
        bytes: &[u8],
        own: Status,
        le: Option<u16>,
    ) -> Reply {
        let count = wanted(bytes.len(), le);
        self.left = copy(rt, &bytes[count..]);
        self.own = own;
        let left = bytes.len() - count;
        let status = if left == 0 {
            word(own)
        } else {
            (0x61, (left.min(256) % 256) as u8)
        };
        Reply {
            data: copy(rt, &bytes[..count]),
            status,
        }
    }

    fn refuse(&mut self, rt: &(impl Abort + AllocGlobal), status: (u8, u8)) -> Reply {
        self.left.clear();
        Reply {
            data: Vec::new(rt.alloc()),
            status,
        }
    }

    /// What the application gives if it is called directly.
    fn answer(&mut self, rt: &(impl Abort + AllocGlobal), command: &Command<'_>) -> Reply {
        let header = command.header();
        let (data, le) = (command.data(), command.le());
        if header.ins == 0xC0 {
            if self.left.is_empty() {
                return self.refuse(rt, (0x69, 0x85));
            }
            let left = copy(rt, &self.left);
            return self.hand_out(rt, &left, self.own, le);
        }
        let takes = header.ins % 2 == 1;
        if (takes && data.is_empty() && le.is_some()) || (!takes && !data.is_empty()) {
            return self.refuse(rt, (0x67, 0x00));
        }
        if header.cla == 0x0E {
            return self.refuse(rt, (0x65, 0x81));
        }
        let length = response_length(header);
        if length > 4_096 {
            return self.refuse(rt, (0x6F, 0x00));
        }
        let shown = if takes { None } else { Some(le.unwrap_or(256)) };
        let told = Command::new(header, data, shown).expect(rt, "a command");
        self.calls += 1;
        let mut bytes = Vec::new(rt.alloc());
        for at in 0..length {
            bytes.push(byte(self.calls, &told, at)).expect(rt, "memory");
        }
        self.hand_out(rt, &bytes, status(length), le)
    }
}

/// A random header with a valid INS. Some are GET RESPONSE.
fn header(numbers: &mut Numbers) -> Header {
    let ins = match numbers.next(5) {
        0 => 0xC0,
        1 => 0x21,
        2 => 0x10 + numbers.next(2) as u8,
        _ => 0xA0 + numbers.next(8) as u8,
    };
    let p1 = match numbers.next(4) {
        0 => numbers.next(256) as u8,
        1 => 1,
        _ => 0,
    };
    Header {
        cla: numbers.next(16) as u8,
        ins,
        p1,
        p2: numbers.next(256) as u8,
    }
}

fn le(numbers: &mut Numbers) -> Option<u16> {
    match numbers.next(4) {
        0 => None,
        1 => Some(256),
        _ => Some(1 + numbers.next(256) as u16),
    }
}

static DATA: [u8; 255] = [0x5A; 255];

fn data(numbers: &mut Numbers) -> &'static [u8] {
    match numbers.next(3) {
        0 => &DATA[..numbers.next(256)],
        1 => &DATA[..1],
        _ => &[],
    }
}

/// A command that is agreed with the application at T=0.
fn is_agreed(command: &Command<'_>) -> bool {
    let header = command.header();
    let (is_empty, le) = (command.data().is_empty(), command.le());
    if header.ins == 0xC0 {
        return false;
    }
    if header.ins % 2 == 1 {
        !is_empty || le.is_none()
    } else {
        is_empty && le.is_some()
    }
}

/// The same status, except that a `61XX` announces at most the cut of a plan.
fn is_cut(status: (u8, u8), of: (u8, u8)) -> bool {
    if of.0 != 0x61 {
        return status == of;
    }
    let (some, all) = (
        usize::from(status.1.wrapping_sub(1)),
        usize::from(of.1.wrapping_sub(1)),
    );
    status.0 == 0x61 && some <= all
}

#[test]
fn a_session_at_t0_is_as_called(rt: HostRuntime) {
    let mut numbers = Numbers { state: 3 };
    let application = Copied::new(Teller { calls: 0 });
    let mut session = OverT0::new(CardEnd::new(CommandCard::new(rt.alloc(), application)));
    let mut beside = Beside::new(&rt);
    for at in 0..COMMANDS {
        let (header, le) = (header(&mut numbers), le(&mut numbers));
        let command = Command::new(header, data(&mut numbers), le).expect(&rt, "a command");
        if !is_agreed(&command) {
            continue;
        }
        let reply = beside.answer(&rt, &command);
        let mut plans = Vec::new(rt.alloc());
        for _ in 0..numbers.next(3) {
            let cut = 1 + numbers.next(256) as u16;
            let plan = Plan::new(Vec::new(rt.alloc()), cut).expect(&rt, "a plan");
            plans.push(plan).expect(&rt, "memory");
        }
        let Ok(answer) = session.send(rt.alloc(), command, &mut Plans::over(&plans), &mut Silent)
        else {
            panic!(&rt; "command {at} has no answer");
        };
        assert!(&rt; answer.data() == &reply.data[..], "data of command {at}");
        assert!(&rt;
            is_cut(word(answer.status()), reply.status),
            "status of command {at}"
        );
        let now = session.session().card().application().current().calls;
        assert!(&rt; now == beside.calls);
    }
}

/// A line that damages or loses one block of eight. After `left` exchanges it loses every block.
#[derive(Drop)]
struct Noisy {
    numbers: Numbers,
    left: usize,
}

impl Noisy {
    fn fate(&mut self) -> Fate {
        match self.numbers.next(16) {
            0 => Fate::Damages,
            1 => Fate::Loses,
            _ => Fate::Delivers,
        }
    }
}

impl Line for Noisy {
    // Ghost members must be there. Nothing proves these.
    ghost use Rattle.std.specs.Prelude.{[]};

    ghost passed = { λ _. [] };

    fn next(&mut self) -> Fates {
        if self.left == 0 {
            return Fates {
                down: Fate::Loses,
                up: Fate::Loses,
            };
        }
        self.left -= 1;
        Fates {
            down: self.fate(),
            up: self.fate(),
        }
    }
}

/// A random command with a valid INS, whatever the direction of its data.
fn command(rt: &impl Abort, numbers: &mut Numbers) -> Command<'static> {
    let (header, le) = (header(numbers), le(numbers));
    Command::new(header, data(numbers), le).expect(rt, "a command")
}

/// Sends random commands by whole commands, beside an application that is called directly.
fn is_as_called<K: Link<Copied<Teller>>>(
    rt: &(impl Abort + AllocGlobal),
    link: &mut K,
    numbers: &mut Numbers,
) {
    let mut beside = Beside::new(rt);
    for at in 0..COMMANDS {
        let command = command(rt, numbers);
        let reply = beside.answer(rt, &command);
        let Ok(exchange) = send(rt.alloc(), link, command) else {
            panic!(rt; "command {at} has no answer");
        };
        let Some((status, data)) = exchange.answer() else {
            panic!(rt; "command {at} has not ended");
        };
        assert!(rt; data == &reply.data[..], "data of command {at}");
        assert!(rt; word(status) == reply.status, "status of command {at}");
    }
}

#[test]
fn whole_commands_are_as_called(rt: HostRuntime) {
    let application = Copied::new(Teller { calls: 0 });
    let mut card = Direct::new(rt.alloc(), application).expect(&rt, "memory");
    is_as_called(&rt, &mut card, &mut Numbers { state: 5 });
}

/// Both ends of a line at T=1 that fails after `left` exchanges.
fn over_t1(
    rt: &(impl Abort + AllocGlobal),
    ifsc: u8,
    state: u64,
    left: usize,
) -> OverT1<Copied<Teller>, Noisy> {
    let settings = Settings::new(Edc::Lrc, ifsc, 40, 40, 16_386).expect(rt, "settings");
    let line = Noisy {
        numbers: Numbers { state },
        left,
    };
    OverT1::new(rt.alloc(), Copied::new(Teller { calls: 0 }), line, settings).expect(rt, "memory")
}

#[test]
fn a_line_at_t1_is_as_called(rt: HostRuntime) {
    let mut card = over_t1(&rt, 20, 7, 10_000_000);
    is_as_called(&rt, &mut card, &mut Numbers { state: 9 });
}

/// A line at T=1 that fails after `left` exchanges of one command. The response has 600 bytes, so
/// GET RESPONSE follows. Returns the outcome, and how often the application was called.
fn dying(rt: &(impl Abort + AllocGlobal), left: usize) -> Option<(Outcome, u32)> {
    let header = Header {
        cla: 0,
        ins: 0x20,
        p1: 2,
        p2: 88,
    };
    let command = Command::new(header, &[], Some(256)).expect(rt, "a command");
    let mut card = over_t1(rt, 4, 11, left);
    let fault: SendFault = send(rt.alloc(), &mut card, command).err()?;
    assert!(rt; !card.is_ready());
    let calls = card.into_card().application().current().calls;
    Some((fault.outcome(), calls))
}

#[test]
fn an_outcome_at_t1_is_true(rt: HostRuntime) {
    let mut seen = [0; 3];
    for left in 0..60 {
        let Some((outcome, calls)) = dying(&rt, left) else {
            continue;
        };
        match outcome {
            Outcome::NotCarriedOut => {
                seen[0] += 1;
                assert!(&rt; calls == 0, "{left}");
            }
            Outcome::Unknown => {
                seen[1] += 1;
                assert!(&rt; calls <= 1, "{left}");
            }
            Outcome::InPart => {
                seen[2] += 1;
                assert!(&rt; calls == 1, "{left}");
            }
        }
    }
    assert!(&rt; seen[0] > 0 && seen[1] > 0 && seen[2] > 10);
}
