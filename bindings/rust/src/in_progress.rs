//! An operation that may be cancelled: a guard resets its terminal.

use crate::error::Error;
use crate::exchange::Answer;
use crate::terminal::{Operation, Terminal};
use core::mem::forget;
use core::ops::{Deref, DerefMut};

/// An operation in progress, and its terminal. A drop before [`finish`](InProgress::finish) resets
/// the terminal, as when a future is cancelled or a function returns early: the next operation may
/// begin. Reset the card too, since what it has done is unknown.
///
/// ```
/// use galliumtoad::{Answer, Error, Operation, Terminal};
///
/// # async fn your_reader(_: &[u8]) -> Vec<u8> { vec![0x6A, 0x88] }
/// /// Reads an object. Its future may be dropped at each `await`.
/// async fn get(terminal: &mut Terminal, tag: u32) -> Result<Answer, Error> {
///     let mut passing = terminal.begin_guarded(Operation::Get(tag))?;
///     while let Some(command) = passing.apdu()? {
///         let response = your_reader(&command.bytes).await;
///         passing.responded(&response)?;
///     }
///     passing.finish()
/// }
/// ```
#[derive(Debug)]
#[must_use = "a drop resets the terminal"]
pub struct InProgress<'a>(&'a mut Terminal);

impl Terminal {
    /// Begins an operation, as [`begin`](Terminal::begin), and returns its guard.
    ///
    /// # Errors
    ///
    /// As [`begin`](Terminal::begin).
    pub fn begin_guarded(&mut self, operation: Operation<'_>) -> Result<InProgress<'_>, Error> {
        self.begin(operation)?;
        Ok(InProgress(self))
    }
}

impl InProgress<'_> {
    /// Returns the answer, which the terminal keeps too.
    ///
    /// # Errors
    ///
    /// - [`Error::State`]: the operation has not ended, or has failed. The terminal is reset.
    /// - [`Error::Buffer`]: it has ended, and there is no memory for the data. The terminal keeps
    ///   the answer.
    pub fn finish(self) -> Result<Answer, Error> {
        let answer = self.answer();
        if answer != Err(Error::State) {
            forget(self);
        }
        answer
    }
}

impl Deref for InProgress<'_> {
    type Target = Terminal;

    fn deref(&self) -> &Terminal {
        self.0
    }
}

impl DerefMut for InProgress<'_> {
    fn deref_mut(&mut self) -> &mut Terminal {
        self.0
    }
}

impl Drop for InProgress<'_> {
    fn drop(&mut self) {
        let _ = self.0.reset();
    }
}
