//! The card's end of a line at T=1 (ISO/IEC 7816-3, clause 11).

use crate::card::Card;
use crate::error::{done, Error};
use crate::own_card::Application;
use crate::raw::{self, Handle};
use crate::t1::Received;

/// A card's end of a line at T=1, of data objects or of an application of your own
/// ([`OwnCard`](crate::OwnCard)). Except after an error it answers each block of a terminal with
/// one block, and carries out each command as [`Card::apdu`]. The response to other bytes than a
/// short command is `6700`, and to an invalid INS `6D00` (profile). The caller keeps the times of
/// the line, which are in [`Atr`](crate::Atr).
///
/// ```
/// use galliumtoad::{CardBuilder, CardT1, Edc, Error, T1Limits, BLOCK_LIMIT, T1};
///
/// let mut builder = CardBuilder::new()?;
/// builder.app(b"\xA0\x00\x00\x00\x03\x10\x10")?;
/// let mut card = CardT1::new(builder.finish()?)?;
/// let mut terminal = T1::new(Edc::Lrc, 32, T1Limits::default())?;
/// let mut room = [0; BLOCK_LIMIT];
/// terminal.begin(b"\x00\xA4\x04\x00\x07\xA0\x00\x00\x00\x03\x10\x10")?;
/// while let Some(block) = terminal.block_into(&mut room)? {
///     if !card.receive(&room[..block.count])?.is_whole {
///         card.missed()?;
///     }
///     let count = card.block_into(&mut room)?.expect("an answer");
///     if !terminal.receive(&room[..count])?.is_whole {
///         terminal.missed()?;
///     }
/// }
/// let count = terminal.response_into(&mut room)?;
/// assert_eq!(room[..count], [0x61, 0x0B]);
/// # Ok::<(), Error>(())
/// ```
#[derive(Debug)]
pub struct CardT1<A = ()>(Card<A>);

impl<A: Application> CardT1<A> {
    /// Resets the card, and begins T=1. Data objects and plans stay; T=1 uses no plans. An
    /// application of your own is reset too.
    ///
    /// # Errors
    ///
    /// - [`Error::Memory`]: memory for a command and a response ran out. The card is dropped.
    pub fn new(card: Card<A>) -> Result<CardT1<A>, Error> {
        let mut end = CardT1(card);
        end.reset()?;
        Ok(end)
    }

    /// Takes bytes of the terminal up to the end of its block. A command is carried out with the
    /// last byte of its last block. At a card of your own [`block_into`](CardT1::block_into)
    /// carries it out, unless another block, `missed` or `damaged` comes before.
    ///
    /// # Errors
    ///
    /// - [`Error::Memory`]: memory ran out for a command. It is not carried out, and there is no
    ///   answer, as if its last block had been lost: the terminal asks. At a card of your own this
    ///   error comes from [`block_into`](CardT1::block_into).
    /// - [`Error::State`]: see [`block_into`](CardT1::block_into).
    pub fn receive(&mut self, bytes: &[u8]) -> Result<Received, Error> {
        let (card, mut taken) = (&self.0 .0, 0);
        let code = card.galliumtoad_card_t1_receive_bytes(bytes, &mut taken);
        Received::of(code, taken)
    }

    /// Reports that a block of the terminal stopped for longer than CWT. The received part of the
    /// block is dropped, and [`block_into`](CardT1::block_into) has the answer.
    ///
    /// # Errors
    ///
    /// - [`Error::State`]: see [`block_into`](CardT1::block_into).
    pub fn missed(&mut self) -> Result<(), Error> {
        done(self.0 .0.galliumtoad_card_t1_missed())
    }

    /// Reports that a character of the terminal's block had a wrong parity: as
    /// [`missed`](CardT1::missed), but the R-block says so. The other bytes of the block still
    /// come: before this call, drop all until none comes for CWT.
    ///
    /// # Errors
    ///
    /// - [`Error::State`]: see [`block_into`](CardT1::block_into).
    pub fn damaged(&mut self) -> Result<(), Error> {
        done(self.0 .0.galliumtoad_card_t1_damaged())
    }

    /// Copies the block to send now to the front of `room`, and returns its length, 4 to
    /// [`BLOCK_LIMIT`](crate::BLOCK_LIMIT). Returns `None` before the terminal's first block,
    /// [`missed`](CardT1::missed) or [`damaged`](CardT1::damaged), or if
    /// [`receive`](CardT1::receive) ran out of memory at the last block. Each further call gives
    /// the same block, until the terminal's next one, `missed`, `damaged` or
    /// [`reset`](CardT1::reset). It is S(WTX request) if an application of your own needs
    /// [more time](Application::more_time).
    ///
    /// # Errors
    ///
    /// - [`Error::Memory`]: memory ran out for a command, at a card of your own. If no application
    ///   was called, nothing has changed.
    /// - [`Error::Buffer`]: `room` is too short. The block stays; a card of your own may have
    ///   carried out its command.
    /// - Those of an application of your own, see [`OwnCard`](crate::OwnCard): they reset the card,
    ///   as does a panic of the application. Until [`reset`](CardT1::reset) begins T=1 again,
    ///   this, [`receive`](CardT1::receive), `missed` and `damaged` are [`Error::State`].
    pub fn block_into(&mut self, room: &mut [u8]) -> Result<Option<usize>, Error> {
        let mut count = 0;
        let sends = |card: &Handle<_>| card.galliumtoad_card_t1_send_bytes(room, &mut count);
        let code = self.0.run(true, sends)?;
        Ok((code != raw::DONE).then_some(count))
    }

    /// Resets the card, at any time, and begins T=1 again. A block or command in progress is
    /// dropped, and nothing is selected or pending. Data objects and plans stay; T=1 uses no plans.
    /// An application of your own is reset too.
    ///
    /// # Errors
    ///
    /// - [`Error::Memory`]: memory for a command and a response ran out. Until this succeeds, the
    ///   other calls are [`Error::State`].
    pub fn reset(&mut self) -> Result<(), Error> {
        self.0.reset()?;
        done(self.0 .0.galliumtoad_card_t1_begin())
    }

    /// Returns the card, to look at its objects and what is selected, or at its application.
    #[must_use]
    pub fn card(&self) -> &Card<A> {
        &self.0
    }

    /// Resets the card, ends T=1, and returns the card, at T=0. Data objects and plans stay. An
    /// application of your own is reset too.
    ///
    /// # Errors
    ///
    /// None today.
    pub fn into_card(mut self) -> Result<Card<A>, Error> {
        self.0.reset()?;
        Ok(self.0)
    }
}
