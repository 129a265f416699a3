//! A terminal's operations over a transport of whole TPDUs or commands.

use crate::card::Card;
use crate::error::Error;
use crate::exchange::Answer;
use crate::t1::Outcome;
use crate::terminal::{Operation, Terminal};
use crate::whole::{ANSWER_LIMIT, APDU_LIMIT};
use crate::wiped::Wiped;
use core::fmt;
use core::ops::DerefMut;

/// What a transport carries.
#[derive(Clone, Copy, Debug, PartialEq, Eq, Hash)]
#[non_exhaustive]
pub enum Level {
    /// Whole TPDUs, at most [`TPDU_LIMIT`](crate::TPDU_LIMIT) bytes: a reader of PC/SC at T=0.
    Tpdu,
    /// Whole commands, at most [`APDU_LIMIT`] bytes: a reader of PC/SC at T=1 or without contacts,
    /// or one that fetches after `61XX` by itself.
    Apdu,
}

/// A reader that carries whole TPDUs or commands to its card, as one of PC/SC does.
///
/// Any closure of this form is one, at [`Level::Tpdu`]. Write the types of its parameters: without
/// them the compiler does not find that it takes slices of any lifetime.
///
/// ```
/// use galliumtoad::{Operation, Terminal};
///
/// let mut reader = |tpdu: &[u8], answer: &mut [u8]| {
///     println!("{} bytes go to the card", tpdu.len());
///     answer[..2].copy_from_slice(&[0x6A, 0x82]);
///     Ok::<usize, std::io::Error>(2)
/// };
/// let answer = Terminal::new()?.run(&mut reader, Operation::Get(0x5F20))?;
/// assert_eq!(answer.status, 0x6A82);
/// # Ok::<(), Box<dyn std::error::Error>>(())
/// ```
///
/// [`whole_commands`] makes one at [`Level::Apdu`]. A [`Card`] of data objects is one, and so is a
/// [`T1Line`], which carries commands in blocks. References and boxes are transports by [`By`].
///
/// [`T1Line`]: crate::T1Line
pub trait Transport {
    /// Why the transport failed: of a closure, its own error.
    type Error;

    /// What it carries: whole TPDUs by default. [`Terminal::run`] asks at most once, before it
    /// sends anything.
    fn level(&self) -> Level {
        Level::Tpdu
    }

    /// Sends a TPDU or a command, and returns how many bytes came back: data, and then SW1 SW2.
    /// They are at the front of `answer`, which has [`ANSWER_LIMIT`] bytes, all 0 before the call.
    /// [`Terminal::run`] ends with [`Error::NoStatus`] if these don't end in a status word, and
    /// with [`Error::TooMany`] if their number is above [`ANSWER_LIMIT`].
    ///
    /// # Errors
    ///
    /// Whatever the reader says. [`Terminal::run`] ends with it, and sends nothing more.
    fn transmit(&mut self, sent: &[u8], answer: &mut [u8]) -> Result<usize, Self::Error>;

    /// Takes what is known of an operation before its next command, for an error of that.
    /// [`Terminal::run`] calls it before each command but the first. Does nothing by default.
    fn follow(&mut self, known: Outcome) {
        let _ = known;
    }
}

impl<E, F: FnMut(&[u8], &mut [u8]) -> Result<usize, E> + ?Sized> Transport for F {
    type Error = E;

    fn transmit(&mut self, sent: &[u8], answer: &mut [u8]) -> Result<usize, E> {
        self(sent, answer)
    }
}

/// A card in memory, by TPDUs and their plans. By whole commands it is
/// `whole_commands(|command, answer| card.apdu_into(command, answer))`.
impl Transport for Card {
    type Error = Error;

    fn transmit(&mut self, sent: &[u8], answer: &mut [u8]) -> Result<usize, Error> {
        self.tpdu_into(sent, answer)
    }
}

/// A closure as a transport of whole commands, see [`whole_commands`].
#[derive(Clone, Copy, Debug)]
pub struct WholeCommands<F>(F);

/// Makes a transport at [`Level::Apdu`] of a closure: for cards at T=1 or without contacts.
pub fn whole_commands<E, F>(transmit: F) -> WholeCommands<F>
where
    F: FnMut(&[u8], &mut [u8]) -> Result<usize, E>,
{
    WholeCommands(transmit)
}

impl<E, F: FnMut(&[u8], &mut [u8]) -> Result<usize, E>> Transport for WholeCommands<F> {
    type Error = E;

    fn level(&self) -> Level {
        Level::Apdu
    }

    fn transmit(&mut self, sent: &[u8], answer: &mut [u8]) -> Result<usize, E> {
        self.0(sent, answer)
    }
}

/// A transport behind a pointer: `By(&mut reader)`, or `By(reader)` of a box. A reference to a
/// closure is a closure, and so a transport by itself: `&mut T` can't be another.
#[derive(Clone, Copy, Debug)]
pub struct By<P>(pub P);

impl<P: DerefMut> Transport for By<P>
where
    P::Target: Transport,
{
    type Error = <P::Target as Transport>::Error;

    fn level(&self) -> Level {
        self.0.level()
    }

    fn transmit(&mut self, sent: &[u8], answer: &mut [u8]) -> Result<usize, Self::Error> {
        self.0.transmit(sent, answer)
    }

    fn follow(&mut self, known: Outcome) {
        self.0.follow(known);
    }
}

/// Why [`Terminal::run`] returned no answer. Text and source are those of the error in it.
#[derive(Clone, Copy, Debug, PartialEq, Eq, Hash)]
#[non_exhaustive]
pub enum RunError<E> {
    /// Nothing was sent. Or a reader's answer does not fit ([`Error::NoStatus`],
    /// [`Error::NotAsked`], [`Error::TooMany`]). Or the card has brought too much, or nothing that
    /// it announced ([`Error::TooLong`], [`Error::Stalled`]). Or there is no memory for the data of
    /// the answer ([`Error::Buffer`]): the terminal keeps the answer.
    Terminal(Error),
    /// The transport failed.
    Transport(E),
}

impl<E: fmt::Display> fmt::Display for RunError<E> {
    fn fmt(&self, f: &mut fmt::Formatter<'_>) -> fmt::Result {
        match self {
            RunError::Terminal(error) => error.fmt(f),
            RunError::Transport(error) => error.fmt(f),
        }
    }
}

impl<E> From<Error> for RunError<E> {
    fn from(error: Error) -> RunError<E> {
        RunError::Terminal(error)
    }
}

impl Terminal {
    /// Carries out an operation over a transport, to the card's answer. Any status is an answer;
    /// a put stops at the first other than `9000`. The operation before it must have ended or
    /// failed.
    ///
    /// # Errors
    ///
    /// - [`RunError::Terminal`] of [`Terminal::begin`]: nothing was sent, and nothing has changed.
    /// - [`RunError::Terminal`] of [`Error::Memory`] after that, at [`Level::Apdu`]: nothing was
    ///   sent, and the terminal is reset. The two look alike.
    /// - [`RunError::Terminal`] of [`Error::Buffer`]: the operation was carried out, and there is
    ///   no memory for the data. The terminal keeps the answer: ask for
    ///   [`answer`](Terminal::answer).
    /// - Any other: the terminal is reset, and the next operation may begin. What the card has done
    ///   is unknown: reset it. Nothing was sent after the error.
    ///
    /// The terminal is reset too if the transport panics.
    pub fn run<T: Transport + ?Sized>(
        &mut self,
        transport: &mut T,
        operation: Operation<'_>,
    ) -> Result<Answer, RunError<T::Error>> {
        let mut passing = self.begin_guarded(operation)?;
        passing.pass(transport)?;
        Ok(passing.finish()?)
    }

    /// Passes what the operation that has begun sends, until it has nothing more to send.
    fn pass<T: Transport + ?Sized>(&mut self, reader: &mut T) -> Result<(), RunError<T::Error>> {
        let level = reader.level();
        let (mut sent, mut room) = (Wiped([0; APDU_LIMIT]), Wiped([0; ANSWER_LIMIT]));
        let mut known = Outcome::NotCarriedOut;
        while let Some(due) = match level {
            Level::Tpdu => self.tpdu_into(&mut sent.0),
            Level::Apdu => self.apdu_into(&mut sent.0),
        }? {
            if known != Outcome::NotCarriedOut {
                reader.follow(known);
            }
            // a reader that writes less than it claims hands back none of an earlier answer
            room.0.fill(0);
            let came = reader.transmit(&sent.0[..due.count], &mut room.0);
            let n = came.map_err(RunError::Transport)?;
            let answer = room.0.get(..n).ok_or(Error::TooMany)?;
            match level {
                Level::Tpdu => self.answered(answer)?,
                Level::Apdu => self.responded(answer)?,
            }
            known = known.after(answer);
        }
        Ok(())
    }
}
