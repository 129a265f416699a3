//! A terminal, which carries out operations with a card over any line.

use crate::error::{done, told, Error};
use crate::exchange::{DataSent, RESPONSE_LIMIT};
use crate::raw::{self, Handle};
use core::fmt;

/// What a terminal does with a card. `Debug` shows an identifier and a tag, but of a value or a
/// command only how many bytes it has.
#[derive(Clone, Copy, PartialEq, Eq, Hash)]
#[non_exhaustive]
pub enum Operation<'a> {
    /// Selects the application with this identifier, of 5 to 16 bytes.
    Select(&'a [u8]),
    /// Reads the data object with this tag. The data should be its tag, length and value, but some
    /// cards send the value alone: [`Answer::object`](crate::Answer::object) tells.
    Get(u32),
    /// Stores a value under a tag, in as many chained commands of up to 255 data bytes as it takes.
    /// It stops at the first status other than `9000`.
    Put(u32, &'a [u8]),
    /// Sends any one command, and fetches as much of the data as its Le asks for: all with `00`,
    /// see [`Exchange`](crate::Exchange).
    Send(&'a [u8]),
}

impl fmt::Debug for Operation<'_> {
    fn fmt(&self, f: &mut fmt::Formatter<'_>) -> fmt::Result {
        match self {
            Operation::Select(aid) => write!(f, "Select({aid:02X?})"),
            Operation::Get(tag) => write!(f, "Get({tag:X})"),
            Operation::Put(tag, value) => write!(f, "Put({tag:X}, {} bytes)", value.len()),
            Operation::Send(command) => write!(f, "Send({} bytes)", command.len()),
        }
    }
}

/// A terminal, which carries out one operation after another with a card over any line.
///
/// An operation begins ([`begin`](Terminal::begin)). Then its characters, its whole TPDUs or its
/// commands go to the card and what comes back to the terminal, until it has an
/// [`answer`](Terminal::answer).
/// [`run`](Terminal::run) does all of that with a [`Transport`](crate::Transport), and
/// [`begin_guarded`](Terminal::begin_guarded) is for code that may be cancelled on the way.
///
/// No chain may be pending at the card when an operation begins, except one that
/// [`Operation::Send`] began and continues. One may be after a fault: a put under the same tag
/// would continue it, and the card may refuse any other with `6883`. So reset the card then.
///
/// The memory of an operation, room for a response and a copy of the data that go to the card, is
/// kept for the next. It keeps sent and received bytes, secrets included, until a later operation
/// overwrites them, or [`reset`](Terminal::reset) or a drop wipes and frees it.
///
/// ```
/// use galliumtoad::{CardBuilder, Operation, Terminal};
///
/// let aid = [0xA0, 0x00, 0x00, 0x00, 0x03, 0x10, 0x10];
/// let mut builder = CardBuilder::new()?;
/// builder.app(&aid)?;
/// let mut card = builder.finish()?;
///
/// let mut terminal = Terminal::new()?;
/// terminal.begin(Operation::Select(&aid))?;
/// while let Some(tpdu) = terminal.tpdu()? {
///     terminal.answered(&card.tpdu(&tpdu.bytes)?)?;
/// }
/// assert_eq!(terminal.answer().unwrap().status, 0x9000);
/// # Ok::<(), galliumtoad::Error>(())
/// ```
#[derive(Debug)]
pub struct Terminal(pub(crate) Handle<raw::Terminal>);

impl Terminal {
    /// Makes a terminal that has begun no operation.
    ///
    /// # Errors
    ///
    /// - [`Error::Memory`]: it ran out.
    pub fn new() -> Result<Terminal, Error> {
        Terminal::new_within(RESPONSE_LIMIT)
    }

    /// Makes a terminal that has begun no operation. The response to a command may have `limit`
    /// data bytes, 0 to [`RESPONSE_LIMIT`]. No operation takes more memory for it by TPDUs, and at
    /// most twice that by whole commands. One byte more is [`Error::TooLong`].
    ///
    /// # Errors
    ///
    /// There is no terminal after either, and the first that holds counts.
    ///
    /// - [`Error::Argument`]: the limit is above that.
    /// - [`Error::Memory`]: it ran out.
    pub fn new_within(limit: usize) -> Result<Terminal, Error> {
        let terminal = Handle::<raw::Terminal>::empty();
        told(terminal.galliumtoad_terminal_new_within(limit))?;
        Ok(Terminal(terminal))
    }

    /// Begins an operation, and drops the last answer. By characters and TPDUs all memory that it
    /// needs, beside what an earlier one has left, is taken here. What [`tpdu`](Terminal::tpdu) and
    /// [`answer`](Terminal::answer) return takes more.
    ///
    /// # Errors
    ///
    /// After each of these nothing has changed, and the last answer stays.
    ///
    /// - [`Error::State`]: one is in progress: it has neither ended nor failed.
    /// - [`Error::Argument`]: an identifier not of 5 to 16 bytes, or a tag that no command can name
    ///   (see [`CardBuilder::object`](crate::CardBuilder::object)).
    /// - [`Error::TooShort`], [`Error::BadLength`], [`Error::InvalidIns`]: the bytes are not a
    ///   command.
    /// - [`Error::Memory`]: it ran out.
    pub fn begin(&mut self, operation: Operation<'_>) -> Result<(), Error> {
        done(match operation {
            Operation::Select(aid) => self.0.galliumtoad_terminal_select(aid),
            Operation::Get(tag) => self.0.galliumtoad_terminal_get(tag),
            Operation::Put(tag, value) => self.0.galliumtoad_terminal_put(tag, value),
            Operation::Send(command) => self.0.galliumtoad_terminal_send(command),
        })
    }

    /// Returns whether all data of the operation's commands so far have left the terminal, as
    /// [`Exchange::data_sent`](crate::Exchange::data_sent). `None` if no operation has begun. By
    /// characters, if the card ends a piece of a put before it takes the piece,
    /// [`DataSent::NotAll`] stays for the rest of the operation.
    #[must_use]
    pub fn data_sent(&self) -> Option<DataSent> {
        let code = told(self.0.galliumtoad_terminal_data_sent());
        code.ok().map(DataSent::of)
    }

    /// Drops the last operation, at any point of it, and its answer. Wipes and frees the memory
    /// that was kept for the next operation, which may begin. The limit stays. The card does not
    /// notice: reset it too.
    ///
    /// # Errors
    ///
    /// None today.
    pub fn reset(&mut self) -> Result<(), Error> {
        done(self.0.galliumtoad_terminal_reset())
    }
}
