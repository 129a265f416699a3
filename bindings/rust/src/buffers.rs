//! Characters of a terminal and of a card, in buffers.

use crate::card::Card;
use crate::error::{done, shown, told, Error};
use crate::own_card::Application;
use crate::raw;

/// What an end has handed out into a buffer.
#[derive(Clone, Copy, Debug, PartialEq, Eq, Hash)]
#[non_exhaustive]
pub struct Sent {
    /// The number of characters at the front of the buffer. The rest of it is unchanged.
    pub count: usize,
    /// Why there are no more.
    pub stop: Stop,
}

/// Why an end hands no more into a buffer.
#[derive(Clone, Copy, Debug, PartialEq, Eq, Hash)]
pub enum Stop {
    /// The buffer is full, as one without room is at once, or a card's NULL comes alone, since its
    /// application needs [more time](crate::Application::more_time): there may be more.
    Full,
    /// The end waits for a character of the other one.
    Listens,
    /// An exchange or an operation has ended, and has its answer.
    Done,
}

/// Why a character of a buffer was not taken. Those before it were. Those after it were not looked
/// at.
#[derive(Clone, Copy, Debug, PartialEq, Eq, Hash)]
#[non_exhaustive]
pub struct ReceiveError {
    /// The number taken: the place of the character that was not.
    pub taken: usize,
    /// The result of a call with that character alone. [`Error::State`] may come for an
    /// empty buffer too.
    pub error: Error,
}

shown! { Display for ReceiveError: it => "{} at {}", it.error, it.taken }

impl<A: Application> Card<A> {
    /// Hands out what the card sends now, as [`turn`](Card::turn) one at a time, as many characters
    /// as `room` has place for. It never stops with [`Stop::Done`].
    ///
    /// # Errors
    ///
    /// None today at a card of data objects. At one of your own those of
    /// [`OwnCard`](crate::OwnCard): card and application are then reset, and the front of
    /// `room` may have changed.
    #[inline]
    pub fn send_bytes(&mut self, room: &mut [u8]) -> Result<Sent, Error> {
        let mut count = 0;
        let code = self.run(true, |card| {
            let mut n = 0;
            let code = card.galliumtoad_card_send_bytes(&mut room[count..], &mut n);
            count += n;
            code
        })?;
        sent(code, count)
    }

    /// Takes characters of the terminal, as many as the card listens to.
    ///
    /// # Errors
    ///
    /// - [`Error::NotListening`], in a [`ReceiveError`]: as of [`take`](Card::take), after the
    ///   characters that it has taken. The others were not looked at.
    #[inline]
    pub fn receive_bytes(&mut self, bytes: &[u8]) -> Result<(), ReceiveError> {
        let mut taken = 0;
        let code = self.0.galliumtoad_card_receive_bytes(bytes, &mut taken);
        received(code, taken)
    }
}

/// What an end has handed out.
#[inline]
pub(crate) fn sent(code: i32, count: usize) -> Result<Sent, Error> {
    let stop = match told(code)? {
        raw::SENDS => Stop::Full,
        raw::DONE => Stop::Done,
        _ => Stop::Listens,
    };
    Ok(Sent { count, stop })
}

/// Whether an end has taken all.
#[inline]
pub(crate) fn received(code: i32, taken: usize) -> Result<(), ReceiveError> {
    done(code).map_err(|error| ReceiveError { taken, error })
}
