//! A terminal's exchange of one command.

use crate::error::{all, shown, told, Error};
use crate::objects::{find, Object};
use crate::raw::{self, Handle};
use crate::status::{Refused, Status};
use alloc::vec::Vec;
use core::fmt;

/// The most data bytes of an answer, if the caller sets no lower limit.
pub const RESPONSE_LIMIT: usize = 16_384;

/// Whether the terminal has sent all data of a command, or of an operation's commands so far.
#[derive(Clone, Copy, Debug, PartialEq, Eq, Hash)]
pub enum DataSent {
    /// Neither of the others: they have all left it, or it has no data to send.
    All,
    /// Not all have. By characters and TPDUs this comes first.
    NotAll,
    /// It is not known: a TPDU or a command went as a whole, also one without data, or
    /// [`Error::BadProcedure`] or [`Error::TooLong`] has ended it.
    NotKnown,
}

impl DataSent {
    pub(crate) fn of(code: i32) -> DataSent {
        match code {
            10 => DataSent::All,
            11 => DataSent::NotAll,
            _ => DataSent::NotKnown,
        }
    }
}

/// What an end does when it is asked. `Debug` leaves the character out.
#[derive(Clone, Copy, PartialEq, Eq, Hash)]
#[must_use = "a character that is sent is handed out once"]
pub enum Turn {
    /// It hands out this character.
    Sends(u8),
    /// It waits for a character of the other end.
    Listens,
    /// An exchange or an operation has ended, and has its answer.
    Done,
}

impl fmt::Debug for Turn {
    fn fmt(&self, f: &mut fmt::Formatter<'_>) -> fmt::Result {
        f.write_str(match self {
            Turn::Sends(_) => "Sends(_)",
            Turn::Listens => "Listens",
            Turn::Done => "Done",
        })
    }
}

/// A card's answer to a command: a status word, and data.
///
/// The data are the caller's to wipe. `Debug` shows their number.
///
/// An `Err` is about the call, a status about the card: a put that the card refuses is `Ok` with a
/// status such as `6982`. The rest is about a card of data objects of this crate. After all except
/// `9000` and `61XX` no value is stored, what was selected stays selected, and a chain is dropped.
/// So is a response that waits, unless GET RESPONSE itself gets `6CXX`. If more than one holds, the
/// answer is the first of `6883`, `6E00`, `6D00`, `6884`, `6A86`, `6985`, `6982`, `6A88`, `6700`,
/// `6CXX`. The others come after the data. [`Card::apdu`](crate::Card::apdu) has more cases of
/// `6700`, and [`CardT1`](crate::CardT1) of `6700` and `6D00`, which change nothing. The card
/// answers:
///
/// | Status | Why |
/// |---|---|
/// | `9000` | it is done, and all data were received |
/// | `61XX` | it is done, and XX more bytes can be had with GET RESPONSE (`00`: 256) |
/// | `6581` | PUT DATA: the card runs out of memory |
/// | `6700` | PUT DATA: a value above 8,192 bytes; SELECT: an identifier not of 5 to 16 bytes |
/// | `6883` | a chain is pending, and this command is not its next one |
/// | `6884` | CLA begins a chain, and INS is not PUT DATA |
/// | `6982` | PUT DATA: the data object is locked |
/// | `6985` | GET DATA, PUT DATA: nothing is selected; GET RESPONSE: nothing waits |
/// | `6A80` | PUT DATA of a template: the value is no list of objects, or has more than 15 levels |
/// | `6A82` | SELECT: there is no such application |
/// | `6A84` | PUT DATA: the tag is new, and the application has 64 data objects |
/// | `6A86` | P1-P2 are not the command's, or name no tag |
/// | `6A88` | GET DATA: the selected application has no such data object |
/// | `6CXX` | fewer bytes are there than asked for: XX. An exchange asks again for these |
/// | `6D00` | INS is not `A4`, `CA`, `DA` or `C0` |
/// | `6E00` | CLA is not `00` or `10`, nor `80` of a GET DATA |
#[derive(Clone, PartialEq, Eq, Hash)]
#[must_use = "the card may have refused"]
#[non_exhaustive]
pub struct Answer {
    /// What the card says of the command.
    pub status: Status,
    /// The bytes before the status.
    pub data: Vec<u8>,
}

impl Answer {
    /// Returns the answer if its status is `9000`. If you want no data, `answer.status.ok()?` is
    /// enough: the compiler warns of an answer that is dropped.
    ///
    /// # Errors
    ///
    /// - [`Refused`]: the status is any other, also `61XX` and a warning. The data are dropped.
    pub fn ok(self) -> Result<Answer, Refused> {
        self.status.ok().map(|()| self)
    }

    /// Returns the data as one object with this tag, and nothing else: the answer to a get of that
    /// tag. `None` if they are not, as when the card sends the value alone, or if `tag` is not a
    /// tag. A template counts only if its value is a list of objects.
    #[must_use]
    pub fn object(&self, tag: u32) -> Option<Object<'_>> {
        let object = find(&self.data, &[tag]).ok().flatten()?;
        Some(object).filter(|it| it.size == self.data.len())
    }
}

shown! { Debug for Answer: it => "Answer({}, {} bytes)", it.status, it.data.len() }

/// An answer whose data were copied into a buffer.
#[derive(Clone, Copy, Debug, PartialEq, Eq, Hash)]
#[non_exhaustive]
pub struct Copied {
    /// What the card says of the command.
    pub status: Status,
    /// The number of data bytes at the front of the buffer. The rest of it is unchanged.
    pub count: usize,
}

pub(crate) fn turned(code: i32, byte: u8) -> Turn {
    match code {
        raw::SENDS => Turn::Sends(byte),
        raw::DONE => Turn::Done,
        _ => Turn::Listens,
    }
}

/// Copies the data of an answer to the front of `room`. `copies` writes status, data and count.
pub(crate) fn answer_into(
    room: &mut [u8],
    copies: impl FnOnce(&mut u16, &mut [u8], &mut usize) -> i32,
) -> Result<Copied, Error> {
    let (mut status, mut count) = (0, 0);
    told(copies(&mut status, room, &mut count))?;
    let status = Status(status);
    Ok(Copied { status, count })
}

/// An answer that owns its data, in no more memory than they need.
pub(crate) fn answer(
    copies: impl Fn(&mut u16, &mut [u8], &mut usize) -> i32,
) -> Result<Answer, Error> {
    let mut status = 0;
    let data = all(|data, n| copies(&mut status, data, n))?;
    let status = Status(status);
    Ok(Answer { status, data })
}

/// A terminal's exchange of one command with a card, over all its TPDUs (ISO/IEC 7816-3, clause
/// 12).
///
/// Ask it for its [`turn`](Exchange::turn), send that character or wait for one of the card, and
/// hand that to [`take`](Exchange::take), until it is done. Or carry whole TPDUs
/// ([`tpdu`](Exchange::tpdu), [`answered`](Exchange::answered)), or whole commands
/// ([`apdu`](Exchange::apdu), [`responded`](Exchange::responded)). Commands don't mix with the
/// other two.
///
/// An exchange may be several TPDUs. If the card answers `6CXX` to one that asks for data, it sends
/// that again with XX, once, unless XX is more than it still wants. If the card answers `61XX`, and
/// it wants more, it sends GET RESPONSE. Any other answer ends the exchange. With Le `00` it wants
/// all there is, with another Le at most that many bytes, without Le none: a SELECT without Le ends
/// at `61XX`, with no data. So end a command with `00` for a whole answer.
///
/// It keeps a copy of the command, and room for the response. A drop frees both, and wipes them.
///
/// Over T=0 no header says which way data move: both ends must know it from INS.
/// [`Session::send`](crate::Session::send) refuses a command that the card takes the other way.
/// Here the card may get characters while it sends ([`Error::NotListening`]), or both ends
/// deadlock, as with `00 A4 04 00 05`: this and the card's turn are [`Turn::Listens`]. Drop the
/// exchange then, and reset the card.
#[derive(Debug)]
pub struct Exchange(pub(crate) Handle<raw::Exchange>);

impl Exchange {
    /// Starts the exchange of a command (ISO/IEC 7816-4, 5.1, short lengths). The bytes are copied.
    ///
    /// # Errors
    ///
    /// - [`Error::TooShort`], [`Error::BadLength`], [`Error::InvalidIns`]: the bytes are not a
    ///   command.
    /// - [`Error::Memory`]: it ran out.
    ///
    /// After each of these there is no exchange.
    pub fn start(command: &[u8]) -> Result<Exchange, Error> {
        Exchange::start_within(command, RESPONSE_LIMIT)
    }

    /// Starts the exchange of a command whose response may have `limit` data bytes, 0 to
    /// [`RESPONSE_LIMIT`]. It takes no more memory for it by TPDUs, and twice that by whole
    /// commands. One byte more is [`Error::TooLong`].
    ///
    /// # Errors
    ///
    /// - [`Error::Argument`], before [`Error::Memory`]: the limit is above [`RESPONSE_LIMIT`].
    ///   There is no exchange.
    /// - Any other: as [`start`](Exchange::start).
    pub fn start_within(command: &[u8], limit: usize) -> Result<Exchange, Error> {
        let exchange = Handle::<raw::Exchange>::empty();
        told(exchange.galliumtoad_exchange_start_within(command, limit))?;
        Ok(Exchange(exchange))
    }

    /// Returns whether all data of the command have left the terminal. A card may end a TPDU with
    /// any status before it takes the data: then a status `61XX`, `62XX`, `63XX` or `9XXX` is no
    /// success.
    #[must_use]
    pub fn data_sent(&self) -> DataSent {
        DataSent::of(self.0.galliumtoad_exchange_data_sent())
    }
}
