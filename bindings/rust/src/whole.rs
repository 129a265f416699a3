//! Whole TPDUs and commands, as a reader of PC/SC carries them (`SCardTransmit` at T=0 and T=1).

use crate::card::Card;
use crate::error::{done, shown, Error};
use crate::own_card::Application;
use crate::raw::{self, Handle};
use crate::wiped::{room_for, wipe, Wiped};
use alloc::vec::Vec;
use core::mem::take;

/// The most bytes of a whole TPDU: header, P3 and 255 bytes of data.
pub const TPDU_LIMIT: usize = 260;

/// The most bytes of a command (APDU): header, Lc, 255 bytes of data and Le.
pub const APDU_LIMIT: usize = 261;

/// The most bytes of the answer to a TPDU or a command: 256 bytes of data, and the status.
pub const ANSWER_LIMIT: usize = 258;

/// A whole TPDU or command (APDU) to send. A TPDU is the header alone, if no data move; the header
/// and P3, if data come back; or the header, P3 and P3 bytes of data.
///
/// A drop wipes its bytes, as they are then. `Debug` shows their number.
#[derive(Clone, PartialEq, Eq, Hash)]
#[non_exhaustive]
pub struct Pdu {
    /// Its bytes, 4 to 260, or to 261 of a command.
    pub bytes: Vec<u8>,
    /// How many bytes of data may come back before the status, 0 to 256.
    pub most: usize,
}

shown! { Debug for Pdu: it => "Pdu({} bytes, {} back)", it.bytes.len(), it.most }

impl Drop for Pdu {
    fn drop(&mut self) {
        wipe(&mut self.bytes);
    }
}

/// A whole TPDU or command to send, which was copied into a buffer.
#[derive(Clone, Copy, Debug, PartialEq, Eq, Hash)]
#[non_exhaustive]
pub struct Due {
    /// The number of its bytes at the front of the buffer, 4 to 260, or to 261 for a command. The
    /// rest of the buffer is unchanged.
    pub count: usize,
    /// How many bytes of data may come back before the status, 0 to 256.
    pub most: usize,
}

/// What was copied to send, if there is anything.
pub(crate) fn due(code: i32, count: usize, most: usize) -> Result<Option<Due>, Error> {
    match done(code) {
        Err(Error::NotDue) => Ok(None),
        told => told.map(|()| Some(Due { count, most })),
    }
}

/// What to send, in memory of its own.
pub(crate) fn pdu(
    copies: impl FnOnce(&mut [u8]) -> Result<Option<Due>, Error>,
) -> Result<Option<Pdu>, Error> {
    let mut room = Wiped([0; APDU_LIMIT]);
    let due = copies(&mut room.0)?;
    due.map(|Due { count, most }| {
        let mut bytes = room_for(count).ok_or(Error::Memory)?;
        bytes.copy_from_slice(&room.0[..count]);
        Ok(Pdu { bytes, most })
    })
    .transpose()
}

/// A function of the archive that has a card carry out a TPDU or a command.
type Carries = fn(&Handle<raw::Card>, &[u8], &mut [u8], &mut usize) -> i32;

impl<A: Application> Card<A> {
    /// Carries out a whole TPDU, as the firmware of a reader does, under the next of the plans. Its
    /// answer is data, and then SW1 SW2. It is the caller's to wipe.
    ///
    /// # Errors
    ///
    /// - [`Error::State`]: characters of a TPDU have passed. Nothing has changed.
    /// - [`Error::NoTpdu`]: the bytes are not a whole TPDU. Nothing has changed.
    /// - [`Error::Memory`]: it ran out. If no application was called, nothing has changed.
    /// - [`Error::WantsData`], [`Error::SendsData`]: both ends would deadlock, so the card was
    ///   reset, with its application. The plan is used up.
    /// - Those of the application, see [`OwnCard`](crate::OwnCard).
    pub fn tpdu(&mut self, tpdu: &[u8]) -> Result<Vec<u8>, Error> {
        self.answer_to(Handle::galliumtoad_card_tpdu, tpdu)
    }

    /// As [`tpdu`](Card::tpdu), with the answer at the front of `room`. Returns the number of its
    /// bytes, 2 to [`ANSWER_LIMIT`].
    ///
    /// # Errors
    ///
    /// - [`Error::Buffer`]: `room` is less than 2 bytes, or than 2 and P3 (`00`: 256) for a TPDU of
    ///   five bytes. Nothing has changed.
    /// - Any other: as [`tpdu`](Card::tpdu); `room` is unchanged.
    pub fn tpdu_into(&mut self, tpdu: &[u8], room: &mut [u8]) -> Result<usize, Error> {
        self.carry_out(Handle::galliumtoad_card_tpdu, tpdu, room)
    }

    /// Carries out a whole command, as a card at T=1 or without contacts does. The response is
    /// data, and then SW1 SW2. It is the caller's to wipe.
    ///
    /// A card of data objects carries the command out as TPDUs, to a terminal that wants Le bytes
    /// (`00`: 256). After `6CXX` it goes once more, with XX. In case 4 GET RESPONSE fetches. What
    /// is left waits, and `61XX` announces it. Plans are for TPDUs and characters alone.
    ///
    /// The card answers `6700`, and nothing changes, to an extended command and to other bytes with
    /// wrong lengths. A card of data objects also answers so, in any class, to SELECT and PUT DATA
    /// (INS `A4`, `DA`) in case 2, and to GET DATA and GET RESPONSE (`CA`, `C0`) in any other case.
    ///
    /// A card of your own carries the command out at once, and it settles. At most Le bytes come
    /// back, none without Le, and `61XX` announces the rest. The card answers `6700` to data where
    /// the application takes none, and to Le without data where it takes some. GET RESPONSE does
    /// not reach the application, and may have data.
    ///
    /// # Errors
    ///
    /// After each of these nothing has changed, except after those of the application, see
    /// [`OwnCard`](crate::OwnCard).
    ///
    /// - [`Error::State`]: characters of a TPDU have passed.
    /// - [`Error::TooShort`], [`Error::InvalidIns`]: the bytes are not a command.
    /// - [`Error::Memory`]: it ran out.
    pub fn apdu(&mut self, command: &[u8]) -> Result<Vec<u8>, Error> {
        self.answer_to(Handle::galliumtoad_card_apdu, command)
    }

    /// As [`apdu`](Card::apdu), with the response at the front of `room`. Returns the number of its
    /// bytes, 2 to [`ANSWER_LIMIT`].
    ///
    /// # Errors
    ///
    /// - [`Error::Buffer`]: `room` is less than 2 bytes and Le (`00`: 256), or than 2 without Le or
    ///   with wrong lengths. Nothing has changed.
    /// - Any other: as [`apdu`](Card::apdu); `room` is unchanged.
    pub fn apdu_into(&mut self, command: &[u8], room: &mut [u8]) -> Result<usize, Error> {
        self.carry_out(Handle::galliumtoad_card_apdu, command, room)
    }

    /// The answer in memory that is taken before the card does anything.
    fn answer_to(&mut self, call: Carries, sent: &[u8]) -> Result<Vec<u8>, Error> {
        let mut room = room_for(ANSWER_LIMIT).ok_or(Error::Memory)?;
        let count = self.carry_out(call, sent, &mut room)?;
        room.truncate(count);
        Ok(room)
    }

    fn carry_out(&mut self, call: Carries, sent: &[u8], room: &mut [u8]) -> Result<usize, Error> {
        let (mut sent, mut count) = (sent, 0);
        // what waits continues without bytes
        self.run(false, |card| call(card, take(&mut sent), room, &mut count))?;
        Ok(count)
    }
}
