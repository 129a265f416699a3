//! A card's status word (ISO/IEC 7816-4, 5.1.3).

use crate::error::shown;
use crate::meanings::MEANINGS;
use alloc::borrow::ToOwned;
use alloc::format;
use alloc::string::String;
use core::fmt;

/// A status word, SW1 and SW2, such as `0x9000`: the card has done all of the command.
///
/// ```
/// use galliumtoad::Status;
///
/// let status = Status(0x6982);
/// assert!(!status.is_ok());
/// assert_eq!((status.sw1(), status.sw2()), (0x69, 0x82));
/// let shown = format!("{status}: {}", status.text());
/// assert_eq!(shown, "6982: security status not satisfied");
/// ```
#[derive(Clone, Copy, PartialEq, Eq, PartialOrd, Ord, Hash)]
#[must_use = "the card may have refused"]
pub struct Status(pub u16);

impl Status {
    /// Whether it is `9000`: the card has done all of it. `61XX` is not: a response waits.
    #[must_use]
    pub fn is_ok(self) -> bool {
        self.0 == 0x9000
    }

    /// Returns `Ok` if it is `9000`.
    ///
    /// # Errors
    ///
    /// - [`Refused`]: it is any other, also `61XX` and a warning.
    pub fn ok(self) -> Result<(), Refused> {
        let refused = Refused { status: self };
        self.is_ok().then_some(()).ok_or(refused)
    }

    /// The first byte.
    #[must_use]
    pub fn sw1(self) -> u8 {
        self.0.to_be_bytes()[0]
    }

    /// The second byte.
    #[must_use]
    pub fn sw2(self) -> u8 {
        self.0.to_be_bytes()[1]
    }

    /// What it means, in a few words (ISO/IEC 7816-4, 5.1.3). `X` or `XX` in it is a number, which
    /// [`words`](Status::words) writes out. A status that is not known is "no known meaning".
    #[must_use]
    pub fn text(self) -> &'static str {
        self.meaning(0, 0).0
    }

    /// As [`text`](Status::text), after a command with this CLA and INS, and with its number. If
    /// the command is not known, they are 0.
    ///
    /// ```
    /// let after_verify = galliumtoad::Status(0x63C2).words(0x00, 0x20);
    /// assert_eq!(after_verify, "a warning: 2 tries are left");
    /// ```
    #[must_use]
    pub fn words(self, cla: u8, ins: u8) -> String {
        let (text, number) = self.meaning(cla, ins);
        match text.split_once('X') {
            Some((before, after)) => format!("{before}{number}{}", after.trim_start_matches('X')),
            None => text.to_owned(),
        }
    }

    /// The words of the first row that fits, and the number in them.
    fn meaning(self, cla: u8, ins: u8) -> (&'static str, u16) {
        let tries =
            cla < 0x80 && matches!(ins, 0x20 | 0x21 | 0x24..=0x26 | 0x28 | 0x2C | 0x2D | 0x82);
        let is_for = |of| of == 'A' || of == 'S' && cla == 0xA0 || of == 'T' && tries;
        let mut rows = MEANINGS.iter();
        let found = rows.find(|row| is_for(row.0) && row.1 <= self.0 && self.0 <= row.2);
        found.map_or(("", 0), |row| (row.3, self.0 - row.1))
    }
}

shown! {
    /// Four digits, as `9000`.
    Display for Status: it => "{:04X}", it.0
}

impl fmt::UpperHex for Status {
    fn fmt(&self, f: &mut fmt::Formatter<'_>) -> fmt::Result {
        fmt::UpperHex::fmt(&self.0, f)
    }
}

shown! { Debug for Status: it => "Status({it})" }

/// Compares a status with a number: `answer.status == 0x9000`.
impl PartialEq<u16> for Status {
    fn eq(&self, word: &u16) -> bool {
        self.0 == *word
    }
}

impl From<u16> for Status {
    fn from(word: u16) -> Status {
        Status(word)
    }
}

/// A card's status other than `9000`, as an error: `6982: security status not satisfied`.
#[derive(Clone, Copy, Debug, PartialEq, Eq, Hash)]
#[non_exhaustive]
pub struct Refused {
    /// What the card says of the command.
    pub status: Status,
}

shown! { Display for Refused: it => "{}: {}", it.status, it.status.text() }
