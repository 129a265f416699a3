//! A card of data objects at the line, and its builder.

use crate::error::{done, told, Error};
use crate::exchange::{turned, Turn};
use crate::own_card::{Application, Own};
use crate::raw::{self, Handle};
use alloc::vec::Vec;
use core::fmt;

/// The most bytes of a value on a card.
pub const VALUE_LIMIT: usize = 8_192;

/// The most bytes of a value on a card with its tag and length: the data of a get.
pub const OBJECT_LIMIT: usize = 8_197;

/// The fewest bytes of an application's identifier.
pub const AID_LEAST: usize = 5;

/// The most bytes of an application's identifier.
pub const AID_LIMIT: usize = 16;

/// The most applications of a card.
pub const APPS_LIMIT: usize = 8;

/// The most data objects of an application.
pub const ENTRIES_LIMIT: usize = 64;

/// The most plans that wait at a card, or in a session.
pub const PLANS_LIMIT: usize = 1_048_576;

/// A data object that a card holds.
///
/// The value is the caller's to wipe. `Debug` shows how many bytes it has.
#[derive(Clone, PartialEq, Eq, Hash)]
#[non_exhaustive]
pub struct Entry {
    /// The tag as a number, as `0x5F20`.
    pub tag: u32,
    /// The value, without tag and length.
    pub value: Vec<u8>,
    /// Whether no command changes it.
    pub is_locked: bool,
}

impl fmt::Debug for Entry {
    fn fmt(&self, f: &mut fmt::Formatter<'_>) -> fmt::Result {
        let locked = if self.is_locked { ", locked" } else { "" };
        let (tag, n) = (self.tag, self.value.len());
        write!(f, "Entry({tag:X}, {n} bytes{locked})")
    }
}

/// Builds a card of up to [`APPS_LIMIT`] applications, each with up to [`ENTRIES_LIMIT`] data
/// objects. Each application gets its objects before the next one is added.
#[derive(Debug)]
pub struct CardBuilder(Handle<raw::Card>);

/// A card at the line, over T=0 and by whole commands. `Card` is one of data objects: SELECT, GET
/// DATA, PUT DATA and GET RESPONSE. `Card<A>` is one of your own, see [`OwnCard`](crate::OwnCard).
///
/// It keeps each value until another is stored under its tag, and the bytes of a TPDU until its
/// second status byte. It keeps those of a chain until it is stored, refused or dropped. One of
/// your own keeps a response until all of it is sent, or the next command drops it. A reset drops
/// all except the values. A drop wipes and frees all.
///
/// ```
/// use galliumtoad::{CardBuilder, Exchange, Turn};
///
/// let aid = [0xA0, 0x00, 0x00, 0x00, 0x03, 0x10, 0x10];
/// let mut builder = CardBuilder::new()?;
/// builder.app(&aid)?;
/// builder.object(0x5F20, b"JOE")?;
/// let mut card = builder.finish()?;
///
/// let mut select = vec![0x00, 0xA4, 0x04, 0x00, 0x07];
/// select.extend(aid);
/// let mut terminal = Exchange::start(&select)?;
/// loop {
///     match terminal.turn()? {
///         Turn::Sends(byte) => card.take(byte)?,
///         Turn::Listens => match card.turn()? {
///             Turn::Sends(byte) => terminal.take(byte)?,
///             _ => break, // both ends wait, see `Exchange`
///         },
///         Turn::Done => break,
///     }
/// }
/// assert_eq!(terminal.answer().unwrap().status, 0x610B);
/// assert_eq!(card.selected(), Some(aid.to_vec()));
/// # Ok::<(), galliumtoad::Error>(())
/// ```
pub struct Card<A = ()>(pub(crate) Handle<raw::Card>, pub(crate) Own<A>);

impl<A> fmt::Debug for Card<A> {
    fn fmt(&self, f: &mut fmt::Formatter<'_>) -> fmt::Result {
        f.write_str("Card")
    }
}

impl CardBuilder {
    /// Makes a builder without applications.
    ///
    /// # Errors
    ///
    /// - [`Error::Memory`]: it ran out. There is no builder.
    pub fn new() -> Result<CardBuilder, Error> {
        let builder = Handle::<raw::Card>::empty();
        told(builder.galliumtoad_card_new())?;
        Ok(CardBuilder(builder))
    }

    /// Adds an application without data objects, with an identifier of 5 to 16 bytes.
    ///
    /// # Errors
    ///
    /// The first that holds; after each of these nothing has changed.
    ///
    /// - [`Error::Argument`]: the identifier has another length.
    /// - [`Error::AppTwice`]: an earlier application has it.
    /// - [`Error::TooManyApps`]: there are [`APPS_LIMIT`].
    /// - [`Error::Memory`]: it ran out.
    pub fn app(&mut self, aid: &[u8]) -> Result<(), Error> {
        done(self.0.galliumtoad_card_app(aid))
    }

    /// Adds a data object to the last application. If it has one under this tag, the new value
    /// replaces the old, and the object is no longer locked.
    ///
    /// GET DATA can name a tag of one byte, `40` to `FE` with bits 5 to 1 not all ones. It can name
    /// one of two bytes: `5F`, `7F`, `9F`, `BF`, `DF` or `FF`, and then `01` to `7F`.
    ///
    /// # Errors
    ///
    /// The first that holds; after each of these nothing has changed.
    ///
    /// - [`Error::Argument`]: GET DATA can't name the tag.
    /// - [`Error::NoApp`]: there is no application yet.
    /// - [`Error::ValueTooLong`]: the value exceeds [`VALUE_LIMIT`].
    /// - [`Error::NotObjects`]: the tag is that of a template, and the value is not a list of
    ///   objects, or has more than 15 levels. Bit 6 of a template's first tag byte is set.
    /// - [`Error::TableFull`]: the tag is new, and the application has [`ENTRIES_LIMIT`].
    /// - [`Error::Memory`]: it ran out.
    pub fn object(&mut self, tag: u32, value: &[u8]) -> Result<(), Error> {
        done(self.0.galliumtoad_card_object(tag, value, false))
    }

    /// As [`object`](CardBuilder::object), but the object is locked: no command changes it.
    ///
    /// # Errors
    ///
    /// As [`object`](CardBuilder::object).
    pub fn locked(&mut self, tag: u32, value: &[u8]) -> Result<(), Error> {
        done(self.0.galliumtoad_card_object(tag, value, true))
    }

    /// Returns the card: nothing is selected, and it listens for a header.
    ///
    /// # Errors
    ///
    /// - [`Error::Memory`]: it ran out. The builder is dropped, with all that it has.
    pub fn finish(self) -> Result<Card, Error> {
        told(self.0.galliumtoad_card_finish())?;
        Ok(Card(self.0, Own::of((), Vec::new())))
    }
}

impl<A: Application> Card<A> {
    /// Takes a character of the terminal.
    ///
    /// # Errors
    ///
    /// - [`Error::NotListening`]: the card has characters to send, or [`turn`](Card::turn) has to
    ///   call its application first. Nothing has changed.
    #[inline]
    pub fn take(&mut self, byte: u8) -> Result<(), Error> {
        done(self.0.galliumtoad_card_take(byte))
    }

    /// Returns what the card does now: [`Turn::Sends`] a character, or [`Turn::Listens`]. A
    /// character that it returns counts as sent. A put is stored when the second status byte has
    /// been handed out, not before. A NULL (`60`) keeps the terminal waiting for an application of
    /// your own that needs [more time](Application::more_time).
    ///
    /// # Errors
    ///
    /// None today at a card of data objects. At one of your own those of
    /// [`OwnCard`](crate::OwnCard): card and application are then reset.
    #[inline]
    pub fn turn(&mut self) -> Result<Turn, Error> {
        let mut byte = 0;
        let code = self.run(true, |card| card.galliumtoad_card_turn(&mut byte))?;
        Ok(turned(code, byte))
    }

    /// Plans how the card answers one more of the TPDUs to come, in turn.
    ///
    /// `steps` are letters, in any order and number, carried out from left to right: `n` a NULL,
    /// `o` one data byte, `a` all that are left. If none are left, `o` and `a` are skipped; `n` is
    /// not. After the last letter all that are left move. If the card refuses the header, none do.
    ///
    /// `cut`, 1 to 256, is the most bytes that `61XX` announces (256 as `6100`). It shows only if a
    /// response waits. Without a plan the card answers as with `""` and 256.
    ///
    /// # Errors
    ///
    /// After each of these nothing has changed.
    ///
    /// - [`Error::Argument`]: another letter, or another cut.
    /// - [`Error::Plans`]: [`PLANS_LIMIT`] plans wait already.
    /// - [`Error::Memory`]: it ran out.
    pub fn plan(&mut self, steps: &str, cut: u16) -> Result<(), Error> {
        done(self.0.galliumtoad_card_plan(steps.as_bytes(), cut))
    }

    /// Resets the card, at any time: a TPDU in progress is dropped, and nothing is selected or
    /// pending. Data objects and the plans that wait stay. An application of your own is reset too.
    ///
    /// # Errors
    ///
    /// None today.
    pub fn reset(&mut self) -> Result<(), Error> {
        done(self.0.galliumtoad_card_reset())?;
        self.1.was_reset();
        Ok(())
    }
}
