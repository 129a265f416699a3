//! Tests that a call leaves no copy of a value except what it returns. The library wipes and frees
//! all memory that it held. An allocator counts bytes, looks for a secret in each freed block, and
//! for what was written past its end.
//! Each call runs on its own stack, in which the test then looks for the secret.
#![cfg(not(feature = "own-memory"))]

use galliumtoad::{encode, find, head, Card, CardBuilder, Error, Exchange, Objects, ObjectsError};
use galliumtoad::{Application, Command, OwnCard, Response, Status};
use galliumtoad::{Operation, Pps, RunError, Session, Terminal, Turn, TPDU_LIMIT};
use std::alloc::{GlobalAlloc, Layout, System};
use std::cell::Cell;
use std::ffi::c_void;
use std::fmt::Debug;
use std::panic::{catch_unwind, AssertUnwindSafe};
use std::ptr::null_mut;
use std::sync::atomic::{AtomicUsize, Ordering::SeqCst};
use std::sync::{Mutex, MutexGuard};

static SECRET: [u8; 16] = *b"\xC3\x5A\x96\x0F\xE1\x3C\xA5\x78\x1E\xB4\x2D\xD2\x4B\x87\x69\xF0";

/// Whether half of the secret is in these bytes, in a row or at every other place.
fn has_secret(bytes: &[u8]) -> bool {
    let steps = |step: usize| {
        let ends = bytes.windows(7 * step + 1);
        ends.filter(|it| it[0] == SECRET[0] || it[0] == SECRET[8])
            .any(|it| {
                let seen = it.iter().step_by(step);
                seen.clone().eq(&SECRET[..8]) || seen.eq(&SECRET[8..])
            })
    };
    steps(1) || steps(2)
}

/// The number of freed blocks that had the secret.
static FOUND: AtomicUsize = AtomicUsize::new(0);

/// The zeros past the end of each block, and the number of freed blocks whose zeros had changed.
const PAST: usize = 256;
static OVERRUN: AtomicUsize = AtomicUsize::new(0);

fn with_zeros(layout: Layout) -> Layout {
    Layout::from_size_align(layout.size() + PAST, layout.align()).expect("a layout")
}

thread_local! {
    /// The bytes that this thread has taken and not freed.
    static TAKEN: Cell<isize> = const { Cell::new(0) };
    /// After this number of blocks the next is refused.
    static LEFT: Cell<usize> = const { Cell::new(usize::MAX) };
}

struct Looking;

unsafe impl GlobalAlloc for Looking {
    unsafe fn alloc(&self, layout: Layout) -> *mut u8 {
        let left = LEFT.with(|it| it.replace(it.get().wrapping_sub(1)));
        if left == 0 {
            return null_mut();
        }
        TAKEN.with(|it| it.set(it.get() + layout.size() as isize));
        System.alloc_zeroed(with_zeros(layout))
    }

    unsafe fn dealloc(&self, block: *mut u8, layout: Layout) {
        if has_secret(std::slice::from_raw_parts(block, layout.size())) {
            FOUND.fetch_add(1, SeqCst);
        }
        let past = std::slice::from_raw_parts(block.add(layout.size()), PAST);
        OVERRUN.fetch_add(usize::from(past.iter().any(|&it| it != 0)), SeqCst);
        TAKEN.with(|it| it.set(it.get() - layout.size() as isize));
        System.dealloc(block, with_zeros(layout));
    }
}

#[global_allocator]
static LOOKING: Looking = Looking;

/// One test at a time.
fn one() -> MutexGuard<'static, ()> {
    static ONE: Mutex<()> = Mutex::new(());
    ONE.lock().unwrap_or_else(|poisoned| poisoned.into_inner())
}

extern "C" {
    fn pthread_attr_init(attr: *mut c_void) -> i32;
    fn pthread_attr_setstack(attr: *mut c_void, stack: *mut u8, size: usize) -> i32;
    fn pthread_create(
        thread: *mut usize,
        attr: *const c_void,
        start: extern "C" fn(*mut c_void) -> *mut c_void,
        with: *mut c_void,
    ) -> i32;
    fn pthread_join(thread: usize, result: *mut c_void) -> i32;
}

#[repr(C)]
struct Taken {
    some: bool,
    at: *mut u8,
}

extern "C" {
    fn rattle_alloc(size: usize, align: usize) -> Taken;
    fn rattle_realloc(block: *mut u8, kept: usize, size: usize, align: usize) -> Taken;
    fn rattle_dealloc(block: *mut u8);
}

/// A block that grows or shrinks keeps what fits, and nothing is written past its end.
#[test]
fn a_block_keeps_what_fits() {
    let _one = one();
    let before = OVERRUN.load(SeqCst);
    for (kept, size) in [(16, 200), (200, 200), (17, 16), (200, 16), (200, 1)] {
        // SAFETY: each block has the bytes that are written to it, and is freed once.
        unsafe {
            let old = rattle_alloc(kept, 1);
            assert!(old.some);
            old.at.write_bytes(0x41, kept);
            let new = rattle_realloc(old.at, kept, size, 1);
            assert!(new.some);
            let fits = std::slice::from_raw_parts(new.at, kept.min(size));
            assert!(fits.iter().all(|&it| it == 0x41), "{kept} to {size}");
            rattle_dealloc(new.at);
        }
    }
    assert_eq!(OVERRUN.load(SeqCst), before);
}

/// Reads all bytes, so that a compiler leaves out no write to them.
fn seen(bytes: &[u8]) {
    for byte in bytes {
        // SAFETY: `byte` is borrowed.
        unsafe { std::ptr::read_volatile(byte) };
    }
}

/// Runs `run` so deep in the stack that nothing overwrites its part before the test reads it.
#[inline(never)]
fn far_below<T>(run: impl FnOnce() -> T) -> (T, u8) {
    let above = [0_u8; 1 << 14];
    (run(), above[0])
}

extern "C" fn start(run: *mut c_void) -> *mut c_void {
    // SAFETY: `left` passes this pointer, and waits for the thread.
    let run = unsafe { &mut *run.cast::<&mut dyn FnMut()>() };
    let taken = TAKEN.with(Cell::get);
    far_below(run);
    assert_eq!(TAKEN.with(Cell::get), taken);
    null_mut()
}

/// Runs `run` on its own stack. Returns how many blocks were freed with the secret, and whether the
/// secret is on the stack after it. `run` has to free what it takes.
fn left(mut run: impl FnMut()) -> (usize, bool) {
    let layout = Layout::from_size_align(1 << 20, 1 << 12).expect("a stack");
    let before = FOUND.load(SeqCst);
    let mut run: &mut dyn FnMut() = &mut run;
    // SAFETY: the stack has this size, and is freed after its thread has ended; attributes of a
    // thread have at most 64 bytes.
    unsafe {
        let (mut attr, mut thread) = ([0_u64; 16], 0);
        let attr = attr.as_mut_ptr().cast::<c_void>();
        let stack = System.alloc_zeroed(layout);
        assert_eq!(pthread_attr_init(attr), 0);
        assert_eq!(pthread_attr_setstack(attr, stack, layout.size()), 0);
        let run = (&mut run as *mut &mut dyn FnMut()).cast();
        assert_eq!(pthread_create(&mut thread, attr, start, run), 0);
        assert_eq!(pthread_join(thread, null_mut()), 0);
        let on_stack = has_secret(std::slice::from_raw_parts(stack, layout.size()));
        System.dealloc(stack, layout);
        (FOUND.load(SeqCst) - before, on_stack)
    }
}

/// No freed block and no place of the stack has the secret after `run`.
#[track_caller]
fn leaves_nothing(run: impl FnMut()) {
    assert_eq!(left(run), (0, false));
}

/// Checks whether bytes that a call returned have the secret, and wipes them, since the test owns
/// them.
fn own(bytes: Vec<u8>, wanted: bool) {
    assert_eq!(has_secret(&bytes), wanted);
    let mut bytes = bytes;
    bytes.fill(0);
    seen(&bytes);
}

const AID: [u8; 7] = [0xA0, 0x00, 0x00, 0x00, 0x03, 0x10, 0x10];
const SELECT: [u8; 12] = *b"\x00\xA4\x04\x00\x07\xA0\x00\x00\x00\x03\x10\x10";
static PUT: [u8; 21] =
    *b"\x00\xDA\x5F\x20\x10\xC3\x5A\x96\x0F\xE1\x3C\xA5\x78\x1E\xB4\x2D\xD2\x4B\x87\x69\xF0";
const GET: [u8; 5] = [0x00, 0xCA, 0x5F, 0x20, 0x13];
static FOUND_OBJECT: [u8; 21] =
    *b"\x5F\x20\x10\xC3\x5A\x96\x0F\xE1\x3C\xA5\x78\x1E\xB4\x2D\xD2\x4B\x87\x69\xF0\x90\x00";

fn card() -> Card {
    let mut builder = CardBuilder::new().expect("memory");
    builder.app(&AID).expect("an application");
    builder.object(0x5F20, &SECRET).expect("an object");
    builder.locked(0x50, &SECRET).expect("an object");
    builder.finish().expect("a card")
}

#[test]
fn what_is_left_is_seen() {
    let _one = one();
    assert_eq!(left(|| drop(SECRET.to_vec())), (1, false));
    let spread: Vec<u8> = SECRET.iter().flat_map(|it| [*it, 1]).collect();
    assert_eq!(left(|| drop(spread.clone())), (1, false));
    let on_stack = || {
        let mut room = [0; 40];
        room[5..21].copy_from_slice(&SECRET);
        seen(&room);
    };
    assert_eq!(left(on_stack), (0, true));
    let before = TAKEN.with(Cell::get);
    let held = SECRET.to_vec();
    assert_eq!(TAKEN.with(Cell::get), before + SECRET.len() as isize);
    drop(held);
    assert_eq!(TAKEN.with(Cell::get), before);
}

#[test]
fn a_card_leaves_nothing() {
    let _one = one();
    leaves_nothing(|| drop(card()));
    // a second call would overwrite what the first leaves, so each has its own stack
    for ask in [Card::tpdu, Card::apdu] {
        leaves_nothing(|| {
            let mut card = card();
            own(ask(&mut card, &SELECT).expect("an answer"), false);
            own(ask(&mut card, &PUT).expect("an answer"), false);
            let (answer, _) = far_below(|| ask(&mut card, &GET).expect("an answer"));
            own(answer, true);
        });
    }
    leaves_nothing(|| {
        let mut card = card();
        own(card.tpdu(&SELECT).expect("an answer"), false);
        let mut room = vec![0; 258];
        assert_eq!(card.tpdu_into(&PUT, &mut room), Ok(2));
        assert_eq!(card.tpdu_into(&GET, &mut room), Ok(21));
        own(room, true);
        for entry in card.entries(0) {
            own(entry.value, true);
        }
    });
}

/// Takes the secret from a command, and answers with it, or panics.
struct Echo(bool);

impl Application for Echo {
    fn takes_data(&self, [_, ins, ..]: [u8; 4]) -> bool {
        ins == 0xDA
    }

    fn carry_out(&mut self, command: Command<'_>, response: &mut Response) -> Status {
        assert_eq!(has_secret(command.data), command.le == 0);
        let is_read = command.le > 0;
        response.extend(if is_read { &SECRET } else { command.data });
        if self.0 {
            std::panic::resume_unwind(Box::new(()));
        }
        Status(0x9000)
    }
}

/// Passes the secret to a card, and fetches it.
fn talk(card: &mut OwnCard<Echo>) {
    let mut room = vec![0; 300];
    let [fetch, get] = [b"\x00\xC0\x00\x00\x10", b"\x00\xCA\x5F\x20\x10"];
    for sent in [&PUT[..5], &PUT[5..], fetch, get] {
        card.receive_bytes(sent).expect("listens");
        assert!(card.send_bytes(&mut room).expect("a card").count > 0);
    }
    own(room, true);
}

#[test]
fn a_card_of_your_own_leaves_nothing() {
    let _one = one();
    let card = |panics| OwnCard::new(Echo(panics)).expect("memory");
    leaves_nothing(|| talk(&mut card(false)));
    let resets = |mut card: OwnCard<Echo>| card.reset().expect("a card");
    for ends in [drop, resets] {
        leaves_nothing(|| {
            let mut card = card(false);
            card.receive_bytes(&PUT[..5]).expect("a header");
            assert_eq!(card.turn(), Ok(Turn::Sends(0xDA)));
            card.receive_bytes(&PUT[5..]).expect("its data");
            assert_eq!(card.turn(), Ok(Turn::Sends(0x61)));
            ends(card);
        });
    }
    let panics = || {
        let run = AssertUnwindSafe(|| talk(&mut card(true)));
        assert!(catch_unwind(run).is_err());
    };
    panics();
    leaves_nothing(panics);
}

#[test]
fn an_exchange_leaves_nothing() {
    let _one = one();
    let start = |command: &[u8]| Exchange::start(command).expect("memory");
    leaves_nothing(|| drop(start(&PUT)));
    leaves_nothing(|| drop(start(&PUT).tpdu()));
    leaves_nothing(|| drop(start(&PUT).tpdu().clone()));
    leaves_nothing(|| {
        let mut room = vec![0; TPDU_LIMIT];
        let due = start(&PUT).tpdu_into(&mut room).expect("room");
        assert_eq!(due.expect("due").count, 21);
        own(room, true);
    });
    leaves_nothing(|| {
        let mut exchange = start(&GET);
        exchange.answered(&FOUND_OBJECT).expect("an answer");
        own(exchange.answer().expect("an answer").data, true);
        let mut room = vec![0; 19];
        assert_eq!(exchange.answer_into(&mut room).expect("one").count, 19);
        own(room, true);
        assert!(exchange.answer_into(&mut [0; 18]).is_err());
    });
}

/// Puts and gets ten values over a transport, over one that fails, and over one that panics.
#[test]
fn a_transport_leaves_nothing() {
    let _one = one();
    leaves_nothing(|| {
        let mut card = card();
        let mut reader = |tpdu: &[u8], answer: &mut [u8]| card.tpdu_into(tpdu, answer);
        let mut terminal = Terminal::new().expect("a terminal");
        let mut run = |operation| terminal.run(&mut reader, operation).expect("an answer");
        assert!(run(Operation::Select(&AID)).status.is_ok());
        for _ in 0..10 {
            assert!(run(Operation::Put(0x5F20, &SECRET)).status.is_ok());
        }
        own(run(Operation::Get(0x5F20)).data, true);
        let mut room = vec![0; 19];
        assert_eq!(terminal.answer_into(&mut room).expect("one").count, 19);
        own(room, true);
    });
    let put = Operation::Put(0x5F20, &SECRET);
    leaves_nothing(|| {
        let mut reader = |_: &[u8], answer: &mut [u8]| {
            answer[..16].copy_from_slice(&SECRET);
            Err(())
        };
        let mut terminal = Terminal::new().expect("a terminal");
        assert!(terminal.run(&mut reader, put).is_err());
    });
    let panics = |value: &[u8]| {
        let mut reader = |_: &[u8], answer: &mut [u8]| -> Result<usize, ()> {
            answer[..16].copy_from_slice(value);
            std::panic::resume_unwind(Box::new(()))
        };
        let mut terminal = Terminal::new().expect("a terminal");
        let run = AssertUnwindSafe(|| terminal.run(&mut reader, put).is_ok());
        assert!(catch_unwind(run).is_err());
    };
    // a function that is linked at its first call saves registers then, with the last copied bytes
    panics(&[0; 16]);
    leaves_nothing(|| panics(&SECRET));
}

#[test]
fn a_session_leaves_nothing() {
    let _one = one();
    let long = SECRET.repeat(40);
    leaves_nothing(|| {
        let mut session = Session::start(card()).expect("a session");
        session.listen().expect("somebody listens");
        assert_eq!(session.select(&AID).expect("an answer").status, 0x9000);
        assert!(session.put(0x5F20, &SECRET).expect("an answer").is_ok());
        let mut heard = at_last(Error::Buffer, || session.heard());
        assert_eq!(heard.len(), 8 + 16);
        for (_, byte) in &mut heard {
            *byte = 0;
            seen(std::slice::from_ref(byte));
        }
        drop(heard);
        own(session.get(0x5F20).expect("an answer").data, true);
        own(session.answer().expect("the same").data, true);
        let mut room = vec![0; 19];
        assert_eq!(session.answer_into(&mut room).expect("one").count, 19);
        own(room, true);
        own(session.send(&GET).expect("an answer").data, true);
        // a block that grows on the way
        assert!(session.put(0x5F21, &long).expect("an answer").is_ok());
        drop(session.end().expect("the card"));
    });
}

#[test]
fn objects_leave_nothing() {
    let _one = one();
    let list = &FOUND_OBJECT[..19];
    leaves_nothing(|| {
        let mut objects = Objects::over(list).expect("objects");
        assert!(has_secret(objects.next().expect("one").value));
        assert!(find(list, &[0x5F20]).expect("objects").is_some());
        own(head(0x5F20, 16).expect("a head"), false);
        own(encode(0x50, &[&SECRET]).expect("an object"), true);
        let fault = encode(0x70, &[&SECRET]).map(drop);
        assert!(matches!(fault, Err(ObjectsError::Fault { .. })));
    });
}

/// Runs `run` while the first block of memory is refused, the second, and so on, until none is.
/// Each fault is this one, and there is one.
#[track_caller]
fn at_last<T, E: Debug + PartialEq>(fault: E, mut run: impl FnMut() -> Result<T, E>) -> T {
    for blocks in 0.. {
        LEFT.with(|it| it.set(blocks));
        let made = run();
        LEFT.with(|it| it.set(usize::MAX));
        match made {
            Ok(made) if blocks > 0 => return made,
            made => assert_eq!(made.err().as_ref(), Some(&fault)),
        }
    }
    unreachable!()
}

/// An answer without memory for its data is an error that says so, and stays: the operation was
/// carried out.
#[test]
fn an_answer_without_memory_stays() {
    let _one = one();
    let mut terminal = Terminal::new().expect("memory");
    let mut reader = |_: &[u8], answer: &mut [u8]| {
        answer[..21].copy_from_slice(&FOUND_OBJECT);
        Ok::<usize, ()>(21)
    };
    let (get, buffer) = (Operation::Send(&GET), RunError::Terminal(Error::Buffer));
    let first = terminal.run(&mut reader, get);
    assert!(first.is_ok(), "which takes room for the next");
    let answer = at_last(buffer, || {
        let found = terminal.run(&mut reader, get);
        assert!(terminal.answer_into(&mut [0; 19]).is_ok());
        found
    });
    assert_eq!(answer.data, FOUND_OBJECT[..19]);
    assert_eq!(at_last(Error::Buffer, || terminal.answer()), answer);
    let mut session = Session::start(card()).expect("a session");
    assert_eq!(session.select(&AID).expect("an answer").status, 0x9000);
    let answer = at_last(Error::Buffer, || session.get(0x5F20));
    assert_eq!(answer.data, FOUND_OBJECT[..19]);
    assert_eq!(at_last(Error::Buffer, || session.answer()), answer);
    session.listen().expect("somebody listens");
    assert!(session.send(&GET).is_ok());
    let heard = at_last(Error::Buffer, || session.heard());
    assert_eq!(heard.len(), GET.len() + 1 + FOUND_OBJECT.len());
}

/// What takes memory before anything is sent or done changes nothing without it.
#[test]
fn without_memory_nothing_is_done() {
    let _one = one();
    let exchange = Exchange::start(&PUT).expect("memory");
    for pdu in [Exchange::tpdu, Exchange::apdu] {
        let due = at_last(Error::Memory, || pdu(&exchange));
        assert_eq!(due.expect("due").bytes, PUT);
    }
    let mut card = card();
    for ask in [Card::tpdu, Card::apdu] {
        let answer = at_last(Error::Memory, || ask(&mut card, &SELECT));
        assert_eq!(answer, [0x61, 0x0B]);
        card.reset().expect("a reset");
    }
    drop(at_last(Error::Memory, || OwnCard::new(Echo(false))));
    let memory = ObjectsError::Memory;
    assert_eq!(memory.to_string(), "out of memory");
    let object = at_last(memory, || encode(0x70, &[b"\x50\x00"]));
    let list = at_last(memory, || Objects::over(&object));
    let template = list.clone().next().expect("one");
    assert_eq!(at_last(memory, || template.children()).count(), 1);
    LEFT.with(|it| it.set(0));
    let agreed = Pps::default().agreed(b"\xFF\x00\xFF");
    LEFT.with(|it| it.set(usize::MAX));
    assert_eq!(agreed, Ok(true));
}
