//! A terminal and a card, joined by a line.

use crate::card::Card;
use crate::error::{all, done, told, Error};
use crate::exchange::{self, Answer, Copied};
use crate::own_card::Own;
use crate::raw::{self, Handle};
use crate::status::Status;
use crate::terminal::Operation;
use crate::wiped::wipe_from;
use alloc::vec::Vec;
use core::mem::size_of_val;

/// One of the two ends of the line.
#[derive(Clone, Copy, Debug, PartialEq, Eq, Hash)]
pub enum End {
    /// The terminal.
    Terminal,
    /// The card.
    Card,
}

/// A terminal and a card, joined by a line that delivers every character.
///
/// An operation is carried out to its answer. None but [`send`](Session::send) can start while a
/// chain is pending that it began. [`Answer`] lists the statuses: a select answers `9000` or
/// `6A82`, a get `9000`, `6985` or `6A88`, and a put `9000`, `6581`, `6700`, `6982`, `6985`, `6A80`
/// or `6A84`.
///
/// ```
#[doc = include_str!("../examples/session.rs")]
/// ```
#[derive(Debug)]
pub struct Session(pub(crate) Handle<raw::Session>);

impl Session {
    /// Takes a card, and resets it: nothing is selected. This takes no memory. Data objects stay,
    /// plans of the card are dropped. Nobody [listens](Session::listen) yet.
    ///
    /// # Errors
    ///
    /// - [`Error::State`]: the card is one of your own, of the application `()`. It is dropped.
    #[allow(clippy::needless_pass_by_value)] // the session owns it from now on
    pub fn start(card: Card) -> Result<Session, Error> {
        let session = Handle::<raw::Session>::empty();
        told(session.galliumtoad_session_start(&card.0))?;
        Ok(Session(session))
    }

    /// Whether an operation other than [`send`](Session::send) can start: no chain is pending. The
    /// last piece of a chain, a command that the card refuses or a [`reset`](Session::reset) ends
    /// it.
    ///
    /// # Errors
    ///
    /// None today.
    pub fn is_idle(&self) -> Result<bool, Error> {
        told(self.0.galliumtoad_session_idle()).map(|it| it == 1)
    }

    /// Plans how the card answers one more TPDU of the next call that is carried out (select, get,
    /// put or send), in turn, as [`Card::plan`]. That call drops the plans that it leaves, and so
    /// does [`Session::end`].
    ///
    /// If it ends with `9000`, a select is two TPDUs, SELECT and GET RESPONSE, and a put one for
    /// each 255 bytes, at least one. A get of up to 255 bytes (tag, length and value) is two: the
    /// first gets `6CXX` and moves no data, the second brings them all. A longer one is a TPDU for
    /// each 256 bytes or less that are left. A select and a longer get are more TPDUs if a `cut` is
    /// smaller. So to have the bytes of a short get come singly, plan `""` first, and then an `o`
    /// for each byte of tag, length and value: `"oooooo"` for a value of 3 bytes under `5F20`.
    ///
    /// # Errors
    ///
    /// As [`Card::plan`].
    pub fn plan(&mut self, steps: &str, cut: u16) -> Result<(), Error> {
        done(self.0.galliumtoad_session_plan(steps.as_bytes(), cut))
    }

    /// Carries out an operation, as [`select`](Session::select), [`get`](Session::get),
    /// [`put`](Session::put) or [`send`](Session::send) do.
    ///
    /// # Errors
    ///
    /// As those.
    pub fn run(&mut self, operation: Operation<'_>) -> Result<Answer, Error> {
        done(match operation {
            Operation::Select(aid) => self.0.galliumtoad_session_select(aid),
            Operation::Get(tag) => self.0.galliumtoad_session_get(tag),
            Operation::Put(tag, value) => self.0.galliumtoad_session_put(tag, value),
            Operation::Send(command) => self.0.galliumtoad_session_send(command),
        })?;
        self.answer()
    }

    /// Selects the application with this identifier, of 5 to 16 bytes. After `6A82` the one before
    /// it stays selected.
    ///
    /// # Errors
    ///
    /// The first that holds. After each but the last nothing was sent, and plans and the last
    /// answer stay.
    ///
    /// - [`Error::Argument`]: the identifier has another length.
    /// - [`Error::Busy`]: a chain is pending.
    /// - [`Error::Memory`]: it ran out.
    /// - [`Error::Buffer`]: it was carried out, and there is no memory for the data. The answer
    ///   stays: ask for [`answer`](Session::answer).
    pub fn select(&mut self, aid: &[u8]) -> Result<Answer, Error> {
        self.run(Operation::Select(aid))
    }

    /// Reads a data object of the selected application: the data are its tag, length and value, at
    /// most [`OBJECT_LIMIT`](crate::OBJECT_LIMIT) bytes.
    ///
    /// # Errors
    ///
    /// - [`Error::Argument`]: GET DATA can't name the tag, see
    ///   [`CardBuilder::object`](crate::CardBuilder::object). Nothing was sent.
    /// - Any other: as [`Session::select`].
    pub fn get(&mut self, tag: u32) -> Result<Answer, Error> {
        self.run(Operation::Get(tag))
    }

    /// Stores a value of the selected application, in as many chained commands of up to 255 data
    /// bytes as it takes. Returns the card's status: `9000`, or why the value is not stored.
    ///
    /// # Errors
    ///
    /// As [`Session::get`], except [`Error::Buffer`].
    pub fn put(&mut self, tag: u32, value: &[u8]) -> Result<Status, Error> {
        self.run(Operation::Put(tag, value)).map(|it| it.status)
    }

    /// Sends any one command. It may start or continue a chain, and never gets [`Error::Busy`]. The
    /// answer has as much of the data as its Le asks for, see [`Exchange`](crate::Exchange).
    ///
    /// # Errors
    ///
    /// After each but the last nothing was sent.
    ///
    /// - [`Error::TooShort`], [`Error::BadLength`], [`Error::InvalidIns`]: the bytes are not a
    ///   command.
    /// - [`Error::Argument`]: over T=0 both ends must know which way data move, and the card takes
    ///   the command the other way. In any class that is a SELECT or PUT DATA (INS `A4`, `DA`)
    ///   without data and with Le, and a GET DATA or GET RESPONSE (`CA`, `C0`) of any other form.
    /// - [`Error::Memory`]: it ran out.
    /// - [`Error::Buffer`]: as [`Session::select`].
    pub fn send(&mut self, command: &[u8]) -> Result<Answer, Error> {
        self.run(Operation::Send(command))
    }

    /// Returns the last answer again. It stays until the next operation or command is carried out,
    /// also over a [`reset`](Session::reset).
    ///
    /// # Errors
    ///
    /// - [`Error::NotFound`]: there is no answer yet.
    /// - [`Error::Buffer`]: there is no memory for the data. The answer stays.
    pub fn answer(&self) -> Result<Answer, Error> {
        exchange::answer(|status, data, n| self.0.galliumtoad_session_answer(status, data, n))
    }

    /// As [`Exchange::answer_into`](crate::Exchange::answer_into), of the last answer.
    ///
    /// # Errors
    ///
    /// - [`Error::NotFound`]: there is no answer yet. `room` is unchanged.
    /// - [`Error::Buffer`]: there are more data than `room` has place for. `room` is unchanged.
    pub fn answer_into(&self, room: &mut [u8]) -> Result<Copied, Error> {
        exchange::answer_into(room, |status, data, n| {
            self.0.galliumtoad_session_answer(status, data, n)
        })
    }

    /// Notes the characters of each operation from now on, for [`Session::heard`]. Characters noted
    /// before are dropped. Noting takes memory and time in each operation.
    ///
    /// # Errors
    ///
    /// None today.
    pub fn listen(&mut self) -> Result<(), Error> {
        done(self.0.galliumtoad_session_listen())
    }

    /// Returns the characters of the last operation that was carried out, each with the end that
    /// sent it. The list is empty before the first one after [`listen`](Session::listen). One that
    /// was not carried out leaves it unchanged. It is the caller's to wipe.
    ///
    /// # Errors
    ///
    /// - [`Error::State`]: nobody [listens](Session::listen).
    /// - [`Error::Memory`]: memory ran out in the operation, so not all were noted.
    /// - [`Error::Buffer`]: there is no memory for the list. It stays.
    pub fn heard(&self) -> Result<Vec<(End, u8)>, Error> {
        let mut line = all(|line, n| self.0.galliumtoad_session_heard(line, n))?;
        let mut heard = Vec::new();
        let room = heard.try_reserve_exact(line.len());
        let from = |it: &raw::Character| match it.from {
            raw::TERMINAL => End::Terminal,
            _ => End::Card,
        };
        if room.is_ok() {
            heard.extend(line.iter().map(|it| (from(it), it.byte)));
        }
        // SAFETY: all of a list that is borrowed by `&mut`, whose numbers may be zeros.
        unsafe { wipe_from(line.as_mut_ptr().cast(), size_of_val(&*line)) };
        room.map(|()| heard).map_err(|_| Error::Buffer)
    }

    /// Resets the card: nothing is selected or pending. Data objects, plans, the last answer and
    /// the noted characters stay, and noting continues.
    ///
    /// # Errors
    ///
    /// None today.
    pub fn reset(&mut self) -> Result<(), Error> {
        done(self.0.galliumtoad_session_reset())
    }

    /// Returns the card, reset: a next session selects again. Data objects stay. Plans that are
    /// left, the last answer and the noted characters are dropped.
    ///
    /// # Errors
    ///
    /// None today.
    pub fn end(self) -> Result<Card, Error> {
        let card = Handle::empty();
        told(self.0.galliumtoad_session_end(&card))?;
        Ok(Card(card, Own::of((), Vec::new())))
    }
}
