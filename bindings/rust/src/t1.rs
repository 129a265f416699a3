//! The terminal's end of a line at T=1 (ISO/IEC 7816-3, clause 11).

use crate::atr::Edc;
use crate::error::{codes, done, told, Error};
use crate::raw::{self, Handle};
use crate::whole::ANSWER_LIMIT;
use core::fmt;

/// The most bytes of a block: NAD, PCB, LEN, 254 bytes and LRC.
pub const BLOCK_LIMIT: usize = 258;

/// The default of [`T1Limits::tries`]; EMV has 2.
pub const T1_TRIES: u8 = 4;

/// The default of [`T1Limits::extensions`]: the making of a key may take a card minutes.
pub const T1_EXTENSIONS: u16 = 1_000;

codes! {
    /// Why a terminal's end at T=1 gave up. Each has the number that `galliumtoad.h` gives it.
    Cause {
        /// More than [`T1Limits::tries`] receptions were fruitless since the last progress.
        TriesSpent = -90, "too many tries without progress";
        /// In one command the card sent more S(WTX request), and S(IFS request) of 1 to 254, than
        /// [`T1Limits::extensions`].
        ExtensionsSpent = -91, "too many requests from the card";
        /// The card sent S(ABORT request), and the end has answered it. It gives up at the next
        /// reception, or at [`T1::missed`] or [`T1::damaged`].
        Aborted = -92, "aborted by the card";
        /// The response is longer than [`T1Limits::response`].
        TooLong = -32, "response too long";
    }
}

/// What is known of a command if a terminal's end at T=1 gave up. Later ones say more of the
/// operation that it belongs to.
#[derive(Clone, Copy, Debug, PartialEq, Eq, PartialOrd, Ord, Hash)]
#[non_exhaustive]
pub enum Outcome {
    /// The card has not carried it out: its last block was never sent, or has to come again in
    /// shorter ones.
    NotCarriedOut,
    /// The card may have carried it out. This is the outcome too if the first field of the response
    /// is too long: no part is kept.
    Unknown,
    /// The card has carried it out, and a part of the response arrived.
    InPart,
}

impl Outcome {
    /// What is known of an operation with this outcome after this response to one of its commands,
    /// if another follows: the card has carried out what it fetches a response of.
    pub(crate) fn after(self, response: &[u8]) -> Outcome {
        match response {
            [.., 0x61, _] => Outcome::InPart,
            _ => self.max(Outcome::Unknown),
        }
    }
}

/// Why a terminal's end at T=1 gave up, and what is known of the command. If it comes from
/// [`Terminal::run`](crate::Terminal::run) over a [`T1Line`](crate::T1Line), `outcome` is that of
/// the operation.
#[derive(Clone, Copy, Debug, PartialEq, Eq, Hash)]
#[non_exhaustive]
pub struct T1Fault {
    /// Why it gave up.
    pub cause: Cause,
    /// What is known of the command, or of the operation.
    pub outcome: Outcome,
}

impl fmt::Display for T1Fault {
    fn fmt(&self, f: &mut fmt::Formatter<'_>) -> fmt::Result {
        let outcome = match self.outcome {
            Outcome::NotCarriedOut => "the card has not carried out the command",
            Outcome::Unknown => "the card may have carried out the command",
            Outcome::InPart => "the card has carried out the command",
        };
        write!(f, "{}: {outcome}", self.cause)
    }
}

/// The limits of a terminal's end at T=1.
#[derive(Clone, Copy, Debug, PartialEq, Eq, Hash)]
pub struct T1Limits {
    /// The fruitless receptions since the last progress that it survives: one more is a fault.
    /// In S(IFS request), before the first command, it is not: the command follows, with all its
    /// tries. Progress is the next field of the response, R that acknowledges a field of the
    /// command, or the end of S(IFS request). Fruitless are a time-out, an invalid block, and a
    /// block that brings no progress. So a lost I-block of the end costs two tries: the time-out,
    /// and the card's R. Any other lost block costs one. A request that the end grants is not
    /// counted.
    pub tries: u8,
    /// The S(WTX request) and S(IFS request) of the card that it grants in one command.
    pub extensions: u16,
    /// The longest response that it takes, in bytes, the status included.
    pub response: usize,
}

impl Default for T1Limits {
    /// [`T1_TRIES`], [`T1_EXTENSIONS`] and [`ANSWER_LIMIT`], which suit short commands.
    fn default() -> T1Limits {
        T1Limits {
            tries: T1_TRIES,
            extensions: T1_EXTENSIONS,
            response: ANSWER_LIMIT,
        }
    }
}

/// A block that was copied into a buffer.
#[derive(Clone, Copy, Debug, PartialEq, Eq, Hash)]
#[non_exhaustive]
pub struct Block {
    /// The number of its bytes at the front of the buffer, 4 to [`BLOCK_LIMIT`].
    pub count: usize,
    /// How many times BWT the card has for its answer: 1, or as many as it asked for.
    pub waits: u8,
}

/// Bytes of a block that an end at T=1 has taken.
#[derive(Clone, Copy, Debug, PartialEq, Eq, Hash)]
#[non_exhaustive]
pub struct Received {
    /// Their number. The bytes after them are not part of the block: drop them, and all that
    /// arrive before the next block is sent.
    pub taken: usize,
    /// Whether the block is whole, valid or not: then [`T1::block_into`] or
    /// [`CardT1::block_into`](crate::CardT1::block_into) has the next one, or at `T1` says that
    /// the command has ended: `None`, or [`Error::Failed`](crate::Error::Failed).
    pub is_whole: bool,
}

impl Received {
    /// What an end has taken, by the code of its call.
    pub(crate) fn of(code: i32, taken: usize) -> Result<Received, Error> {
        let is_whole = told(code)? == raw::SENDS;
        Ok(Received { taken, is_whole })
    }
}

/// A terminal's end of a line at T=1, which carries whole commands over a line that may damage and
/// lose bytes. The times of the line are the caller's to keep: [`Atr::waits`](crate::Atr::waits)
/// has them, and [`T1Line`](crate::T1Line) keeps them. [`CardT1`](crate::CardT1) has an example.
///
/// Before the first command it sends S(IFS request) with 254. It takes fields of 254 bytes whether
/// the card answers that or not (profile).
#[derive(Debug)]
pub struct T1(Handle<raw::T1>);

impl T1 {
    /// Makes an end as after a reset of the card, whose answer to reset has this EDC and IFSC. Only
    /// LRC is supported (profile).
    ///
    /// # Errors
    ///
    /// There is no end after either.
    ///
    /// - [`Error::Argument`]: `edc` is not [`Edc::Lrc`], or `ifsc` is 0 or 255.
    /// - [`Error::Memory`]: it ran out. The end takes the room for a short command and for
    ///   `limits.response` bytes at once.
    pub fn new(edc: Edc, ifsc: u8, limits: T1Limits) -> Result<T1, Error> {
        let t1 = Handle::<raw::T1>::empty();
        let (edc, tries, extensions) = (edc as u8, limits.tries, limits.extensions);
        told(t1.galliumtoad_t1_new(edc, ifsc, tries, extensions, limits.response))?;
        Ok(T1(t1))
    }

    /// Starts a command of any length, which is copied, and drops the last response.
    ///
    /// # Errors
    ///
    /// After each of these nothing has changed.
    ///
    /// - [`Error::State`]: a command is in progress, or the end gave up.
    /// - [`Error::Memory`]: it ran out, for a command of more than 261 bytes.
    pub fn begin(&mut self, command: &[u8]) -> Result<(), Error> {
        done(self.0.galliumtoad_t1_begin(command))
    }

    /// Copies the block to send now to the front of `room`. Returns `None` if no command is in
    /// progress: the last one has its response, or none has started. Each further call gives the
    /// same block, until [`receive`](T1::receive) has taken a whole block or a call of
    /// [`missed`](T1::missed), [`damaged`](T1::damaged) or [`reset`](T1::reset).
    ///
    /// # Errors
    ///
    /// After each of these nothing has changed.
    ///
    /// - [`Error::Failed`]: the end gave up, see [`fault`](T1::fault).
    /// - [`Error::Buffer`]: `room` is too short. [`BLOCK_LIMIT`] bytes are always enough.
    pub fn block_into(&self, room: &mut [u8]) -> Result<Option<Block>, Error> {
        let (end, mut count, mut waits) = (&self.0, 0, 0);
        let code = end.galliumtoad_t1_send_bytes(room, &mut count, &mut waits);
        match told(code)? {
            raw::DONE => Ok(None),
            _ => Ok(Some(Block { count, waits })),
        }
    }

    /// Takes bytes of the card, up to the end of its block. An invalid block is a fruitless
    /// reception.
    ///
    /// # Errors
    ///
    /// - [`Error::State`]: no block is awaited, since no command is in progress or the end gave up.
    ///   Nothing has changed.
    pub fn receive(&mut self, bytes: &[u8]) -> Result<Received, Error> {
        let mut taken = 0;
        let code = self.0.galliumtoad_t1_receive_bytes(bytes, &mut taken);
        Received::of(code, taken)
    }

    /// Reports that no valid block of the card came. Either none began within BWT times
    /// [`Block::waits`], or one stopped for longer than CWT. This is a fruitless reception. The
    /// received part of the block is dropped.
    ///
    /// # Errors
    ///
    /// - [`Error::State`]: no block is awaited. Nothing has changed.
    pub fn missed(&mut self) -> Result<(), Error> {
        done(self.0.galliumtoad_t1_missed())
    }

    /// Reports that a character of the card's block had a wrong parity: as
    /// [`missed`](T1::missed), but if an R-block follows, it says so. The other bytes of the block
    /// still come: before this call, drop all until none comes for CWT.
    ///
    /// # Errors
    ///
    /// - [`Error::State`]: no block is awaited. Nothing has changed.
    pub fn damaged(&mut self) -> Result<(), Error> {
        done(self.0.galliumtoad_t1_damaged())
    }

    /// Copies the response to the last command to the front of `room`: data, and then SW1 SW2. The
    /// end does not check that: [`Terminal::responded`](crate::Terminal::responded) does. Returns
    /// the number of its bytes, or 0 before the first command. The response stays until the next
    /// [`begin`](T1::begin) or [`reset`](T1::reset).
    ///
    /// # Errors
    ///
    /// After each of these nothing has changed, and `room` is unchanged.
    ///
    /// - [`Error::State`]: a command is in progress, or the end gave up.
    /// - [`Error::Buffer`]: there are more bytes than `room` has place for.
    pub fn response_into(&self, room: &mut [u8]) -> Result<usize, Error> {
        let mut count = 0;
        done(self.0.galliumtoad_t1_response(room, &mut count))?;
        Ok(count)
    }

    /// Returns why the end gave up, or `None` if it did not. From then on a command can start only
    /// after [`reset`](T1::reset). An operation may need several commands, and the outcome is that
    /// of the last one: GET RESPONSE may be [`Outcome::NotCarriedOut`], although it fetches the
    /// response of a command that the card has carried out.
    #[must_use]
    pub fn fault(&self) -> Option<T1Fault> {
        let (mut cause, mut outcome) = (0, 0);
        done(self.0.galliumtoad_t1_fault(&mut cause, &mut outcome)).ok()?;
        let outcome = match outcome {
            raw::NOT_CARRIED_OUT => Outcome::NotCarriedOut,
            raw::IN_PART => Outcome::InPart,
            _ => Outcome::Unknown,
        };
        let cause = Cause::of(cause);
        Some(T1Fault { cause, outcome })
    }

    /// Makes the end as it was after [`new`](T1::new), with the same limits, at any time. Call it
    /// when the card was reset. It drops the command in progress, the last response and the fault.
    ///
    /// # Errors
    ///
    /// None today.
    pub fn reset(&mut self) -> Result<(), Error> {
        done(self.0.galliumtoad_t1_reset())
    }
}
