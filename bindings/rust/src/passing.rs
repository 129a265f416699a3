//! The calls that an exchange and an operation of a terminal share: characters, buffers, whole
//! TPDUs and whole commands, and then the answer.

use crate::buffers::{received, sent, ReceiveError, Sent};
use crate::error::{done, told, Error};
use crate::exchange::{self, turned, Answer, Copied, Exchange, Turn};
use crate::terminal::Terminal;
use crate::whole::{self, Due, Pdu};

/// Adds these calls to an end, each over a function of the archive for its kind of handle.
macro_rules! passes {
    ($end:ident {
        turn: $turn:ident, take: $take:ident, send_bytes: $send_bytes:ident,
        receive_bytes: $receive_bytes:ident, tpdu: $tpdu:ident, answered: $answered:ident,
        apdu: $apdu:ident, responded: $responded:ident, answer: $answer:ident,
    }) => {
        impl $end {
            /// Returns what the terminal does now. A character that it returns counts as sent, and
            /// does not come again. Any other result changes nothing.
            ///
            /// # Errors
            ///
            /// The first that holds.
            ///
            /// - [`Error::State`]: it goes by whole commands, see [`apdu`](Self::apdu), or a
            ///   terminal has begun no operation.
            /// - [`Error::Failed`]: it has failed for good.
            #[inline]
            pub fn turn(&mut self) -> Result<Turn, Error> {
                let mut byte = 0;
                let code = told(self.0.$turn(&mut byte))?;
                Ok(turned(code, byte))
            }

            /// Takes a character of the card. If it completes a status, the next TPDU begins, or it
            /// has ended.
            ///
            /// # Errors
            ///
            /// The first that holds. Only [`Error::BadProcedure`], [`Error::TooLong`] and
            /// [`Error::Stalled`] change anything.
            ///
            /// - [`Error::State`]: it goes by whole commands.
            /// - [`Error::AfterEnd`]: it has ended or failed, or a terminal has begun no operation.
            /// - [`Error::NotListening`]: it has characters to send.
            /// - [`Error::BadProcedure`], [`Error::TooLong`], [`Error::Stalled`]: with this
            ///   character it has failed for good. Reset the card.
            #[inline]
            pub fn take(&mut self, byte: u8) -> Result<(), Error> {
                done(self.0.$take(byte))
            }

            /// Hands out what the terminal sends now, as [`turn`](Self::turn) one at a time, up to
            /// the end of `room`. An empty `room` gives [`Stop::Full`](crate::Stop::Full), also if
            /// it has ended or failed, but never instead of [`Error::State`].
            ///
            /// # Errors
            ///
            /// As [`turn`](Self::turn). Nothing is handed out.
            #[inline]
            pub fn send_bytes(&mut self, room: &mut [u8]) -> Result<Sent, Error> {
                let mut count = 0;
                let code = self.0.$send_bytes(room, &mut count);
                sent(code, count)
            }

            /// Takes characters of the card, as [`take`](Self::take) one at a time, up to the first
            /// fault.
            ///
            /// # Errors
            ///
            /// - [`ReceiveError`]: the first fault. The state is as after that of
            ///   [`take`](Self::take).
            #[inline]
            pub fn receive_bytes(&mut self, bytes: &[u8]) -> Result<(), ReceiveError> {
                let mut taken = 0;
                let code = self.0.$receive_bytes(bytes, &mut taken);
                received(code, taken)
            }

            /// Returns the next whole TPDU, for a reader that carries whole TPDUs. `None` if one of
            /// its characters was sent, if it has ended or failed, or if a terminal has begun no
            /// operation.
            ///
            /// # Errors
            ///
            /// - [`Error::State`]: it goes by whole commands, also if it has ended or failed.
            ///   Nothing has changed.
            /// - [`Error::Memory`]: it ran out. Nothing has changed.
            pub fn tpdu(&self) -> Result<Option<Pdu>, Error> {
                whole::pdu(|room| self.tpdu_into(room))
            }

            /// As [`tpdu`](Self::tpdu), with the bytes at the front of `room`, and without memory.
            ///
            /// # Errors
            ///
            /// - [`Error::State`]: as [`tpdu`](Self::tpdu).
            /// - [`Error::Buffer`]: `room` is too short. [`TPDU_LIMIT`](crate::TPDU_LIMIT) bytes
            ///   are always enough.
            pub fn tpdu_into(&self, room: &mut [u8]) -> Result<Option<Due>, Error> {
                let (mut count, mut most) = (0, 0);
                let code = self.0.$tpdu(room, &mut count, &mut most);
                whole::due(code, count, most)
            }

            /// Takes the answer to the TPDU of [`tpdu`](Self::tpdu): data, and then SW1 SW2. It
            /// continues as after the characters of any TPDU that brings these: another TPDU
            /// follows, or it has ended.
            ///
            /// # Errors
            ///
            /// The first that holds. After all but [`Error::TooLong`] and [`Error::Stalled`]
            /// nothing has changed.
            ///
            /// - [`Error::State`]: it goes by whole commands.
            /// - [`Error::NoStatus`]: the bytes don't end in a status word.
            /// - [`Error::NotDue`]: [`tpdu`](Self::tpdu) returns `None`.
            /// - [`Error::NotAsked`], [`Error::TooMany`]: more data came back than may.
            /// - [`Error::TooLong`], [`Error::Stalled`]: it has failed for good. Reset the card.
            pub fn answered(&mut self, answer: &[u8]) -> Result<(), Error> {
                done(self.0.$answered(answer))
            }

            /// Returns the command to send now, for a reader that carries whole commands: see
            /// [`Level::Apdu`](crate::Level::Apdu). GET RESPONSE follows `61XX` if it wants more.
            /// After `6CXX` a command of case 2 goes once more, unless XX is more than it still
            /// wants. `None` if it has ended or failed.
            ///
            /// The first character sent, or the first answer that is taken or fails it, sets the
            /// level, for each operation anew. From then on calls of the other level are
            /// [`Error::State`], and nothing changes.
            ///
            /// # Errors
            ///
            /// - [`Error::State`]: it goes by characters and TPDUs, also if it has ended or failed,
            ///   or a terminal has begun no operation. Nothing has changed.
            /// - [`Error::Memory`]: it ran out, also for this level, which takes its memory by the
            ///   first of these calls. Nothing has changed.
            pub fn apdu(&self) -> Result<Option<Pdu>, Error> {
                whole::pdu(|room| self.apdu_into(room))
            }

            /// As [`apdu`](Self::apdu), with the bytes at the front of `room`.
            ///
            /// # Errors
            ///
            /// - [`Error::Buffer`]: `room` is too short. [`APDU_LIMIT`](crate::APDU_LIMIT) bytes
            ///   are always enough.
            /// - Any other: as [`apdu`](Self::apdu).
            pub fn apdu_into(&self, room: &mut [u8]) -> Result<Option<Due>, Error> {
                let (mut count, mut most) = (0, 0);
                let code = self.0.$apdu(room, &mut count, &mut most);
                whole::due(code, count, most)
            }

            /// Takes the response to the command of [`apdu`](Self::apdu): data, and then SW1 SW2.
            /// Another command follows, or it has ended.
            ///
            /// # Errors
            ///
            /// - [`Error::State`], [`Error::Memory`]: as [`apdu`](Self::apdu).
            /// - [`Error::NotDue`]: [`apdu`](Self::apdu) returns `None`. Nothing has changed.
            /// - Any other: as [`answered`](Self::answered).
            pub fn responded(&mut self, response: &[u8]) -> Result<(), Error> {
                done(self.0.$responded(response))
            }

            /// Returns the answer, the status and the data of the last command. Each further call
            /// gives the same, until a terminal begins the next operation or is reset.
            ///
            /// # Errors
            ///
            /// - [`Error::State`]: it is in progress or has failed, or a terminal has begun no
            ///   operation.
            /// - [`Error::Buffer`]: there is no memory for the data. The answer stays.
            pub fn answer(&self) -> Result<Answer, Error> {
                exchange::answer(|status, data, n| self.0.$answer(status, data, n))
            }

            /// As [`answer`](Self::answer), with the data at the front of `room`. This takes no
            /// memory, and makes no other copy of the data.
            ///
            /// # Errors
            ///
            /// - [`Error::State`]: as [`answer`](Self::answer). `room` is unchanged.
            /// - [`Error::Buffer`]: `room` is too short, and unchanged;
            ///   [`RESPONSE_LIMIT`](crate::RESPONSE_LIMIT) bytes are always enough.
            pub fn answer_into(&self, room: &mut [u8]) -> Result<Copied, Error> {
                exchange::answer_into(room, |status, data, n| self.0.$answer(status, data, n))
            }
        }
    };
}

passes! { Exchange {
    turn: galliumtoad_exchange_next, take: galliumtoad_exchange_take,
    send_bytes: galliumtoad_exchange_send_bytes,
    receive_bytes: galliumtoad_exchange_receive_bytes,
    tpdu: galliumtoad_exchange_tpdu, answered: galliumtoad_exchange_answered,
    apdu: galliumtoad_exchange_apdu, responded: galliumtoad_exchange_responded,
    answer: galliumtoad_exchange_answer,
} }

passes! { Terminal {
    turn: galliumtoad_terminal_next, take: galliumtoad_terminal_take,
    send_bytes: galliumtoad_terminal_send_bytes,
    receive_bytes: galliumtoad_terminal_receive_bytes,
    tpdu: galliumtoad_terminal_tpdu, answered: galliumtoad_terminal_answered,
    apdu: galliumtoad_terminal_apdu, responded: galliumtoad_terminal_responded,
    answer: galliumtoad_terminal_answer,
} }
