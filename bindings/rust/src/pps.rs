//! PPS: a terminal's request for other values, and whether a card's response agrees (ISO/IEC
//! 7816-3, clause 9).

use crate::error::codes;
use crate::raw::{copied, Copied, Library};
use alloc::vec::Vec;

/// The most bytes of a PPS request or response.
pub const PPS_LIMIT: usize = 6;

/// The mark of an absent character.
const ABSENT: u16 = 256;

/// What a terminal asks for by PPS: a protocol, and any of PPS1 to PPS3.
///
/// ```
/// use galliumtoad::Pps;
///
/// let asked = Pps { t: 0, pps1: Some(0x96), ..Pps::default() };
/// let request = asked.request().expect("T is not above 15");
/// assert_eq!(request, b"\xFF\x10\x96\x79");
/// assert!(asked.agreed(b"\xFF\x10\x96\x79")?);
/// assert!(!asked.agreed(b"\xFF\x10\x11\xFE")?);
/// # Ok::<(), galliumtoad::PpsError>(())
/// ```
#[derive(Clone, Copy, Debug, Default, PartialEq, Eq, Hash)]
pub struct Pps {
    /// T, 0 to 15.
    pub t: u8,
    /// The codes of Fi and Di, as TA1 has them.
    pub pps1: Option<u8>,
    /// PPS2.
    pub pps2: Option<u8>,
    /// PPS3.
    pub pps3: Option<u8>,
}

codes! {
    /// Why a response can't be judged. For a response it is the first fault from the left; a wrong
    /// PCK comes last.
    PpsError {
        /// The values are not a request: T is above 15.
        Argument = -5, "bad argument";
        /// The first byte is not `FF`.
        NoPpss = -80, "no PPSS";
        /// There are no bytes, or they end before an expected character.
        Cut = -81, "PPS cut";
        /// Bit 8 of PPS0 is 1, which is reserved.
        Reserved = -82, "PPS0 reserved";
        /// Characters follow PCK.
        Surplus = -83, "characters after PCK";
        /// PCK does not make the exclusive-or of all characters `00`.
        CheckWrong = -84, "wrong PCK";
    }
}

impl Pps {
    /// Returns the request's bytes, 3 to 6. `None` if T is above 15. The caller knows whether the
    /// card offers this: one that doesn't may stay silent.
    #[must_use]
    pub fn request(&self) -> Option<Vec<u8>> {
        self.bytes().map(|it| it.to_vec())
    }

    fn bytes(self) -> Option<Copied<PPS_LIMIT>> {
        let number = |byte: Option<u8>| byte.map_or(ABSENT, u16::from);
        let [pps1, pps2, pps3] = [self.pps1, self.pps2, self.pps3].map(number);
        copied(|to, n| Library::galliumtoad_pps_request(self.t, pps1, pps2, pps3, to, n))
    }

    /// Returns whether a card's response accepts this request (ISO/IEC 7816-3, 9.3). It does if it
    /// names the same protocol, and each of PPS1 to PPS3 is as requested or absent. If it does not,
    /// reset the card or give it up.
    ///
    /// The card does not accept an absent one: without PPS1, Fi is 372 and Di 1. It has accepted
    /// all that was requested if the response equals [`request`](Pps::request).
    ///
    /// # Errors
    ///
    /// - [`PpsError::Argument`]: T is above 15, whatever the response is.
    /// - Any other: the bytes are not a response. This is their first fault.
    pub fn agreed(&self, response: &[u8]) -> Result<bool, PpsError> {
        let request = self.bytes().ok_or(PpsError::Argument)?;
        let code = Library::galliumtoad_pps_agreed(&request, response);
        if code < 0 {
            Err(PpsError::of(code))
        } else {
            Ok(code != 0)
        }
    }
}
