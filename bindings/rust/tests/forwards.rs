//! Tests what the crate makes of the archive's codes and outputs, also those that no card brings
//! about, and of its version. Stand-ins replace the archive's functions. Which function a call
//! goes to, and with what, the compiler and the other tests check.

use galliumtoad::{head, version, version_fits, Card, CardBuilder, Error, Exchange};
use galliumtoad::{CardT1, Cause, DataSent, Edc, Outcome, OwnCard, T1Limits, T1};
use galliumtoad::{ReceiveError, Sent, Stop, Terminal, Turn};
use std::cell::{Cell, RefCell};

/// What a call writes: the places of its arguments, and the bytes that go where each points to.
type Outputs = Vec<(usize, Vec<u8>)>;

thread_local! {
    static TOLD: RefCell<Vec<i32>> = const { RefCell::new(Vec::new()) };
    static WRITES: RefCell<Vec<(&'static str, Outputs)>> = const { RefCell::new(Vec::new()) };
    static VERSION: Cell<i32> = const { Cell::new(OWN) };
    static LOOKS: Cell<usize> = const { Cell::new(0) };
}

/// The archive's version if a test sets no other: that of the crate.
const OWN: i32 = 0x000300;

/// Sets the archive's version in another process (`a_library_of_another_version_is_refused`).
const TELLS: &str = "GALLIUMTOAD_TELLS_VERSION";

/// Writes what the test has set for a call, and returns its code.
fn note(name: &'static str, handed: &[usize]) -> i32 {
    let name = name.strip_prefix("galliumtoad_").expect("a prefix");
    let outputs = WRITES.with(|it| {
        let mut writes = it.borrow_mut();
        let at = writes.iter().position(|it| it.0 == name)?;
        Some(writes.remove(at).1)
    });
    for (at, bytes) in outputs.into_iter().flatten() {
        // SAFETY: `writes` names an argument that points to this number of bytes.
        unsafe { (handed[at] as *mut u8).copy_from(bytes.as_ptr(), bytes.len()) };
    }
    match name {
        "version" => {
            LOOKS.with(|it| it.set(it.get() + 1));
            let told = std::env::var(TELLS).ok().and_then(|it| it.parse().ok());
            told.unwrap_or(VERSION.with(Cell::get))
        }
        name if name.ends_with("_free") => 0,
        _ => TOLD.with(|it| {
            let mut codes = it.borrow_mut();
            if codes.len() > 1 {
                return codes.remove(0);
            }
            codes.first().copied().unwrap_or(0)
        }),
    }
}

// nothing reads through pointers to these
enum Held {}
enum Object {}
enum Character {}

mod stand_ins {
    use super::{note, Character, Held, Object};
    type Atr = Held;
    type Command = Held;

    macro_rules! declared {
        (of $end:ident; $(fn $name:ident($($arg:ident: $of:ty),*) $(-> $back:ty)?;)*) => {
            $(
                #[no_mangle]
                extern "C" fn $name($($arg: $of),*) $(-> $back)? {
                    let _told = note(stringify!($name), &[$($arg as usize),*]);
                    $(_told as $back)?
                }
            )*

            /// Functions for a kind of handle have its name.
            #[test]
            #[allow(non_snake_case)]
            fn $end() {
                let start = format!("galliumtoad_{}_", stringify!($end).to_lowercase());
                let is_right = |it: &str| it.starts_with(&start) || start.ends_with("_library_");
                assert!([$(stringify!($name)),*].into_iter().all(is_right));
            }
        };
    }

    include!("../src/functions.rs");
}

/// Sets the codes that the archive returns from now on: each once, and then the last.
fn tell(codes: &[i32]) {
    TOLD.with(|it| it.replace(codes.to_vec()));
}

/// The next call of this function writes these bytes through these arguments.
fn writes(name: &'static str, outputs: &[(usize, &[u8])]) {
    let outputs = outputs.iter().map(|(at, bytes)| (*at, bytes.to_vec()));
    WRITES.with(|it| it.borrow_mut().push((name, outputs.collect())));
}

fn exchange() -> Exchange {
    tell(&[0]);
    Exchange::start(&[]).expect("started")
}

fn terminal() -> Terminal {
    tell(&[0]);
    Terminal::new().expect("a terminal")
}

fn card() -> Card {
    tell(&[0]);
    let builder = CardBuilder::new().expect("a builder");
    builder.finish().expect("a card")
}

/// A version fits if its major and minor numbers are those of the crate.
#[test]
fn of_versions() {
    for (number, parts, fits) in [
        (0x000300, (0, 3, 0), true),
        (0x0003FF, (0, 3, 255), true),
        (0x000200, (0, 2, 0), false),
        (0x000400, (0, 4, 0), false),
        (0x010300, (1, 3, 0), false),
    ] {
        VERSION.with(|it| it.set(number));
        assert_eq!((version(), version_fits()), (parts, fits));
    }
}

/// A function of the library and a handle, each as the first call of a process.
#[test]
fn a_library_of_another_version_is_refused() {
    let first: [(&str, fn()); 2] = [
        ("head", || drop(head(0x50, 0))),
        ("Terminal", || drop(Terminal::new())),
    ];
    const CALL: &str = "GALLIUMTOAD_FIRST_CALL";
    if let Ok(name) = std::env::var(CALL) {
        let call = first.iter().find(|(it, _)| *it == name);
        let call = call.expect("a call").1;
        // the second is refused as the first
        let _ = std::panic::catch_unwind(call);
        return call();
    }
    let own = std::env::current_exe().expect("this program");
    let numbers = [OWN, OWN + 1, OWN + 0x010000, 0x0F00];
    let rows = numbers.map(|number| first.map(|(name, _)| (name, number)));
    for (name, number) in rows.into_iter().flatten() {
        let done = std::process::Command::new(&own)
            .args(["--exact", "a_library_of_another_version_is_refused"])
            .env(CALL, name)
            .env(TELLS, number.to_string())
            .output()
            .expect("the program runs");
        let fits = number / 0x100 == OWN / 0x100;
        assert_eq!(done.status.success(), fits, "{name} {number:X}");
        let says = String::from_utf8_lossy(&done.stdout).into_owned();
        let parts = (number >> 16, number >> 8 & 0xFF, number & 0xFF);
        let named = format!("galliumtoad {}.{}.{}", parts.0, parts.1, parts.2);
        assert_eq!(says.contains(&named), !fits, "{says}");
    }
}

/// The version is read before the first call of a process, and not again.
#[test]
fn versions_are_looked_at_once() {
    let _ = head(0x50, 0);
    let before = LOOKS.with(Cell::get);
    drop((exchange(), head(0x50, 0)));
    assert_eq!(LOOKS.with(Cell::get), before);
}

/// For each code: why sending stopped, and how many characters were taken. An exchange and a
/// terminal share the body.
#[test]
fn of_what_buffers_tell() {
    let (mut exchange, mut terminal, mut card) = (exchange(), terminal(), card());
    let sent = |found: Result<Sent, Error>| found.map(|it| (it.count, it.stop));
    let received = |found: Result<(), ReceiveError>| found.map_err(|it| (it.taken, it.error));
    for (code, stop, taking) in [
        (0, Ok(Stop::Listens), Ok(())),
        (1, Ok(Stop::Full), Ok(())),
        (2, Ok(Stop::Done), Ok(())),
        (-3, Err(Error::State), Err(Error::State)),
        (-30, Err(Error::NotListening), Err(Error::NotListening)),
    ] {
        tell(&[code]);
        let (stop, taking) = (stop.map(|it| (0, it)), taking.map_err(|it| (0, it)));
        assert_eq!(sent(exchange.send_bytes(&mut [])), stop);
        assert_eq!(received(exchange.receive_bytes(&[])), taking);
        assert_eq!(sent(card.send_bytes(&mut [])), stop);
        assert_eq!(received(card.receive_bytes(&[])), taking);
    }
    for (code, turn) in [(0, Turn::Listens), (1, Turn::Sends(0)), (2, Turn::Done)] {
        tell(&[code]);
        assert_eq!((exchange.turn(), terminal.turn()), (Ok(turn), Ok(turn)));
    }
}

/// The header allows characters before a command that waits.
#[test]
fn of_characters_before_a_command() {
    tell(&[0]);
    let (mut card, mut room) = (OwnCard::new(()).expect("a card"), [0; 6]);
    for (bytes, count) in [(&b"AB"[..], 2_usize), (b"CDE", 3)] {
        writes("card_send_bytes", &[(1, bytes), (3, &count.to_ne_bytes())]);
    }
    // a command waits, is handed over and answered, and more is sent
    tell(&[3, 0, 0, 1]);
    let sent = card.send_bytes(&mut room);
    assert_eq!(sent.map(|it| (it.count, it.stop)), Ok((5, Stop::Full)));
    assert_eq!(&room, b"ABCDE\0");
}

/// What the archive writes is what the crate returns.
#[test]
fn of_outputs() {
    let [five, seven] = [5_usize, 7].map(usize::to_ne_bytes);
    let (mut exchange, terminal) = (exchange(), terminal());
    writes("exchange_send_bytes", &[(3, &five)]);
    assert_eq!(exchange.send_bytes(&mut []).map(|it| it.count), Ok(5));
    writes("terminal_apdu", &[(3, &five), (4, &seven)]);
    let due = terminal.apdu_into(&mut []).expect("due").expect("due");
    assert_eq!((due.count, due.most), (5, 7));
    tell(&[-30]);
    writes("exchange_receive_bytes", &[(3, &five)]);
    let fault = exchange.receive_bytes(&[]).expect_err("a fault");
    assert_eq!((fault.taken, fault.error), (5, Error::NotListening));
    assert_eq!(fault.to_string(), "not listening at 5");
    for (code, wanted, of_exchange) in [
        (10, Some(DataSent::All), DataSent::All),
        (11, Some(DataSent::NotAll), DataSent::NotAll),
        (12, Some(DataSent::NotKnown), DataSent::NotKnown),
        (-3, None, DataSent::NotKnown),
    ] {
        tell(&[code]);
        assert_eq!(terminal.data_sent(), wanted);
        assert_eq!(exchange.data_sent(), of_exchange);
    }
    // no TPDU or command is next, or the level is another one
    for (code, wanted) in [(-60, Ok(())), (-3, Err(Error::State))] {
        tell(&[code]);
        assert_eq!(exchange.tpdu(), wanted.map(|()| None));
        assert_eq!(exchange.apdu(), wanted.map(|()| None));
        assert_eq!(terminal.tpdu_into(&mut []), wanted.map(|()| None));
    }
}

/// How both ends at T=1 tell what the archive writes.
#[test]
fn of_outputs_at_t1() {
    let five = 5_usize.to_ne_bytes();
    let mut card = CardT1::new(card()).expect("a card");
    let mut end = T1::new(Edc::Lrc, 32, T1Limits::default()).expect("an end");
    writes("t1_receive_bytes", &[(3, &five)]);
    assert_eq!(end.receive(&[]).map(|it| it.taken), Ok(5));
    writes("card_t1_send_bytes", &[(3, &five)]);
    assert_eq!(card.block_into(&mut []), Ok(Some(5)));
    writes("card_t1_receive_bytes", &[(3, &five)]);
    assert_eq!(card.receive(&[]).map(|it| it.taken), Ok(5));
    for (code, cause) in [
        (-90, Cause::TriesSpent),
        (-91, Cause::ExtensionsSpent),
        (-92, Cause::Aborted),
        (-32, Cause::TooLong),
    ] {
        for (number, outcome, words) in [
            (0, Outcome::NotCarriedOut, "has not carried"),
            (1, Outcome::Unknown, "may have carried"),
            (2, Outcome::InPart, "has carried"),
        ] {
            let (code, number) = (i32::to_ne_bytes(code), i32::to_ne_bytes(number));
            writes("t1_fault", &[(1, &code), (2, &number)]);
            let fault = end.fault().expect("a fault");
            assert_eq!((fault.cause, fault.outcome), (cause, outcome));
            let text = format!("{cause}: the card {words} out the command");
            assert_eq!(fault.to_string(), text);
        }
    }
}

/// A code below 0 is an error, even one that the crate does not know. Other codes are not.
#[test]
fn of_codes() {
    let mut it = card();
    for (code, wanted) in [
        (0, Ok(())),
        (1, Ok(())),
        (i32::MAX, Ok(())),
        (-1, Err(Error::Unknown(-1))),
        (-3, Err(Error::State)),
        (i32::MIN, Err(Error::Unknown(i32::MIN))),
    ] {
        tell(&[code]);
        assert_eq!(it.reset(), wanted);
    }
    for code in -100..0 {
        tell(&[code]);
        let fault = it.reset().expect_err("a fault");
        assert_eq!(fault.code(), code);
        let is_unknown = fault == Error::Unknown(code);
        let text = fault.to_string();
        assert_eq!(text == format!("unknown code {code}"), is_unknown);
    }
}
