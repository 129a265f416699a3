//! A line of bytes at T=1 as a transport of whole commands.

use crate::atr::T1Waits;
use crate::error::Error;
use crate::t1::{Outcome, T1Fault, BLOCK_LIMIT, T1};
use crate::transport::{Level, Transport};
use crate::wiped::Wiped;
use core::mem::replace;
use core::time::Duration;

/// A line of bytes to a card and back, as a serial port with time-outs.
pub trait Line {
    /// Why the line has failed, or the end at T=1: `Box<dyn Error>` is of this kind.
    type Error: From<Error> + From<T1Fault>;

    /// Sends all of these bytes, and returns when they are out: then the card's time begins.
    ///
    /// # Errors
    ///
    /// Whatever the line says. [`T1Line`] ends the command with it.
    fn send(&mut self, bytes: &[u8]) -> Result<(), Self::Error>;

    /// Waits at most this long for a byte, and returns how many bytes are at the front of `room`:
    /// those that have arrived. It returns 0 if none has. After a wrong parity it drops all bytes
    /// until none comes for this long, and returns 0.
    ///
    /// # Errors
    ///
    /// Whatever the line says. [`T1Line`] ends the command with it.
    fn receive(&mut self, room: &mut [u8], wait: Duration) -> Result<usize, Self::Error>;
}

/// A terminal's end at T=1 and its line, as a transport of whole commands. It keeps the times of
/// the line: it sends once the line was quiet for [`T1Waits::guard`], or was not in 258 calls of
/// [`Line::receive`].
///
/// Its error is the line's own, a [`T1Fault`] if the end gave up, or an [`Error`]: of the end, or
/// [`Error::TooMany`] if the line claims more bytes than the room has. After one, reset the card,
/// and then [`end`](T1Line::end). Until then a command is [`Error::State`], if the last is in
/// progress or the end gave up.
#[derive(Debug)]
#[non_exhaustive]
pub struct T1Line<L> {
    /// The end, as after a reset of the card.
    pub end: T1,
    /// The times, as [`Atr::waits`](crate::Atr::waits) gives them.
    pub waits: T1Waits,
    /// The line.
    pub line: L,
    /// What is known of the operation before the next command.
    known: Outcome,
}

impl<L: Line> T1Line<L> {
    /// Joins an end and a line.
    pub fn new(end: T1, waits: T1Waits, line: L) -> T1Line<L> {
        T1Line {
            end,
            waits,
            line,
            known: Outcome::NotCarriedOut,
        }
    }

    /// Passes blocks until the command has its response.
    fn pass(&mut self, room: &mut [u8]) -> Result<(), L::Error> {
        while let Some(block) = self.end.block_into(room)? {
            self.await_quiet()?;
            self.line.send(&room[..block.count])?;
            let mut wait = self.waits.block.saturating_mul(block.waits.into());
            loop {
                let count = self.arrived(room, wait)?;
                if count == 0 {
                    self.end.missed()?;
                    break;
                }
                if self.end.receive(&room[..count])?.is_whole {
                    break;
                }
                wait = self.waits.character;
            }
        }
        Ok(())
    }

    /// Drops what arrives late, until the line was quiet for BGT. One that is never quiet does not
    /// keep the next block back for ever.
    fn await_quiet(&mut self) -> Result<(), L::Error> {
        let mut late = Wiped([0; BLOCK_LIMIT]);
        for _ in 0..BLOCK_LIMIT {
            if self.arrived(&mut late.0, self.waits.guard)? == 0 {
                break;
            }
        }
        Ok(())
    }

    fn arrived(&mut self, room: &mut [u8], wait: Duration) -> Result<usize, L::Error> {
        let count = self.line.receive(room, wait)?;
        let fits = count <= room.len();
        fits.then_some(count).ok_or_else(|| Error::TooMany.into())
    }
}

impl<L: Line> Transport for T1Line<L> {
    type Error = L::Error;

    fn level(&self) -> Level {
        Level::Apdu
    }

    fn follow(&mut self, known: Outcome) {
        self.known = known;
    }

    fn transmit(&mut self, sent: &[u8], answer: &mut [u8]) -> Result<usize, Self::Error> {
        let known = replace(&mut self.known, Outcome::NotCarriedOut);
        self.end.begin(sent)?;
        let mut room = Wiped([0; BLOCK_LIMIT]);
        let passed = self.pass(&mut room.0);
        if let Some(mut fault) = self.end.fault() {
            fault.outcome = fault.outcome.max(known);
            return Err(fault.into());
        }
        passed?;
        Ok(self.end.response_into(answer)?)
    }
}
