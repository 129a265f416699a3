//! Answers to reset (ISO/IEC 7816-3, clause 8, and clause 11 for T=1).

use crate::error::{codes, shown};
use crate::raw;
use core::time::Duration;

/// The most bytes of an answer to reset.
pub const ATR_LIMIT: usize = 33;

/// The most protocols that an answer offers: T=0 to T=14.
pub const PROTOCOLS_LIMIT: usize = 15;

/// Why bytes are not an answer to reset: the first fault from the left. A wrong check byte comes
/// last.
#[derive(Clone, Copy, Debug, PartialEq, Eq, Hash)]
#[non_exhaustive]
pub struct AtrError {
    /// The place of the first byte at fault, from 0 for TS. If a byte is missing, it is the number
    /// of bytes; with [`AtrReason::TooLong`] it is 33.
    pub place: usize,
    /// What is wrong there.
    pub reason: AtrReason,
}

codes! {
    /// What is wrong with bytes that are not an answer to reset.
    AtrReason {
        /// The first byte is neither `3B` nor `3F`.
        NoTs = -70, "no TS";
        /// There are fewer than 33 bytes, and they end before TS, T0 or a character that is
        /// announced. One more byte may mend this.
        Cut = -71, "answer to reset cut";
        /// There are 33 bytes or more, and the answer would have more than 33, the most, with TCK.
        TooLong = -72, "answer to reset too long";
        /// The T that this TD names is below the one before it, or is 15 in TD1.
        OutOfOrder = -73, "T out of order";
        /// Bytes follow TCK, or at least two follow the end without TCK.
        Surplus = -74, "characters after the answer to reset";
        /// TCK is missing, which a T other than 0 requires. One more byte may mend this.
        CheckMissing = -75, "check byte missing";
        /// One byte follows the end, and TCK is not expected.
        CheckNotDue = -76, "check byte not due";
        /// TCK does not make the exclusive-or of all characters after TS `00`.
        CheckWrong = -77, "wrong check byte";
    }
}

shown! { Display for AtrError: it => "{} at {}", it.reason, it.place }

/// How the line shows the bits of a character (ISO/IEC 7816-3, 8.1).
#[derive(Clone, Copy, Debug, PartialEq, Eq, Hash)]
pub enum Convention {
    /// TS is `3B`: a high state is 1, and the lowest bit comes first.
    Direct,
    /// TS is `3F`: a low state is 1, and the highest bit comes first.
    Inverse,
}

/// The mode of a card after its answer (ISO/IEC 7816-3, 6.3.1, and TA2 in 8.3).
#[derive(Clone, Copy, Debug, PartialEq, Eq, Hash)]
pub enum Mode {
    /// The terminal may ask for other values by PPS.
    Negotiable,
    /// The card continues at once. Bits 7 and 6 of TA2, which are reserved, are not looked at.
    Specific {
        /// With this protocol, 0 to 15, whether the answer offers it or not.
        t: u8,
        /// Whether it can change to negotiable mode.
        can_change: bool,
        /// Whether Fi and Di are implicit, and not those of TA1.
        is_implicit: bool,
    },
}

/// Whether the clock may stop, and the level at which it does (ISO/IEC 7816-3, 8.3).
#[derive(Clone, Copy, Debug, PartialEq, Eq, Hash)]
pub enum ClockStop {
    /// It may not.
    NotSupported,
    /// At the low level.
    AtLow,
    /// At the high level.
    AtHigh,
    /// At either.
    AtEither,
}

/// The classes of voltage that a card takes (ISO/IEC 7816-3, 8.3).
#[derive(Clone, Copy, Debug, PartialEq, Eq, Hash)]
#[non_exhaustive]
pub struct Classes {
    /// 5 V.
    pub a: bool,
    /// 3 V.
    pub b: bool,
    /// 1.8 V.
    pub c: bool,
}

/// The form of historical bytes, by the first of them (ISO/IEC 7816-4, 12.1.1).
#[derive(Clone, Copy, Debug, PartialEq, Eq, Hash)]
pub enum Category {
    /// There are no historical bytes.
    Absent,
    /// `00`: objects in COMPACT-TLV, and then a status: the last three bytes, if three or more
    /// follow the `00`.
    StatusBehind,
    /// `10`: the next byte refers to a record of EF.DIR.
    DirReference,
    /// `80`: objects in COMPACT-TLV; the last may be a status.
    Objects,
    /// `81` to `8F`, which are reserved.
    Reserved,
    /// Any other: the form is the maker's own.
    Proprietary,
}

/// The least time between the beginnings of two characters to the card (ISO/IEC 7816-3, 8.3).
#[derive(Clone, Copy, Debug, PartialEq, Eq, Hash)]
#[non_exhaustive]
pub struct GuardTime {
    /// The elementary time units, at the current rate.
    pub etu: u16,
    /// And this many times Fi/Di clock cycles, by Fi and Di of TA1.
    pub indicated: u16,
}

/// The error detection code of blocks of T=1 (ISO/IEC 7816-3, clause 11).
#[derive(Clone, Copy, Debug, PartialEq, Eq, Hash)]
#[non_exhaustive]
pub enum Edc {
    /// One byte: the exclusive-or of all others of the block.
    Lrc = 1,
    /// Two bytes: a cyclic redundancy check.
    Crc = 2,
}

/// BWT of T=1: the most from the last character of a block to the card to the first of its answer
/// (ISO/IEC 7816-3, clause 11). An S(WTX) multiplies both for one block.
#[derive(Clone, Copy, Debug, PartialEq, Eq, Hash)]
#[non_exhaustive]
pub struct BlockWaitingTime {
    /// The elementary time units, at the current rate: 11.
    pub etu: u16,
    /// The clock cycles in addition: 2^BWI * 960 * 372.
    pub cycles: u64,
}

/// The times of a line, each part rounded up to nanoseconds. A reserved code gives `None`.
#[derive(Clone, Copy, Debug, PartialEq, Eq, Hash)]
#[non_exhaustive]
pub struct Waits {
    /// WT of T=0: the most from one character to the next.
    pub character: Option<Duration>,
    /// Those of T=1.
    pub t1: Option<T1Waits>,
}

/// The times of a line at T=1; [`Atr`] says what each is.
#[derive(Clone, Copy, Debug, PartialEq, Eq, Hash)]
pub struct T1Waits {
    /// BWT.
    pub block: Duration,
    /// CWT.
    pub character: Duration,
    /// BGT.
    pub guard: Duration,
}

/// What an answer to reset says. For a missing character the default of ISO/IEC 7816-3 holds (8.2,
/// 8.3, 10.2 for WI, and clause 11 for T=1). A reserved code gives `None`, but `rate_code` keeps
/// it, and [`Category`] names it. The values for T=1 are by the first TA, TB and TC for T=1 from
/// TA3, TB3 and TC3 on.
///
/// ```
/// use galliumtoad::{Atr, AtrReason};
///
/// let atr = Atr::read(b"\x3B\x65\x00\x00\x20\x63\xCB\x68\x00")?;
/// assert_eq!(atr.protocols(), [0]);
/// assert_eq!((atr.fi, atr.di), (Some(372), Some(1)));
/// assert_eq!(atr.historical, b"\x20\x63\xCB\x68\x00");
///
/// let fault = Atr::read(b"\x3B\x65\x00").unwrap_err();
/// assert_eq!((fault.reason, fault.place), (AtrReason::Cut, 3));
/// # Ok::<(), galliumtoad::AtrError>(())
/// ```
#[derive(Clone, Copy, Debug, PartialEq, Eq, Hash)]
#[non_exhaustive]
pub struct Atr<'a> {
    /// How the line shows the bits of a character.
    pub convention: Convention,
    /// Whether T=15 is named, which is not a protocol: what follows it holds for all of them.
    pub names_15: bool,
    /// TA1, or `11`: the codes of Fi and of Di, as PPS1 has them.
    pub rate_code: u8,
    /// Fi, the clock rate conversion integer.
    pub fi: Option<u16>,
    /// The highest clock frequency, in kHz.
    pub max_khz: Option<u16>,
    /// Di, the baud rate adjustment integer.
    pub di: Option<u8>,
    /// N: TC1, or 0.
    pub extra_guard_time: u8,
    /// WI of T=0: TC2, or 10.
    pub waiting_integer: Option<u8>,
    /// The waiting time of T=0 in clock cycles: WI * 960 * Fi.
    pub waiting_time: Option<u32>,
    /// IFSC of T=1, the most bytes in the field of a block to the card, 1 to 254. It is the first
    /// TA for T=1 from TA3 on, or 32.
    pub ifsc: Option<u8>,
    /// The error detection code of T=1: by the first TC for T=1 from TC3 on, or LRC.
    pub edc: Option<Edc>,
    /// BWI of T=1, 0 to 9: by the first TB for T=1 from TB3 on, or 4.
    pub block_waiting_integer: Option<u8>,
    /// CWI of T=1, 0 to 15: by the same TB, or 13.
    pub character_waiting_integer: u8,
    /// CWT of T=1 in etu, 11 + 2^CWI: the most from one character of a block to the next.
    pub character_waiting_time: u16,
    /// BWT of T=1: 11 etu and 2^BWI * 960 * 372 clock cycles.
    pub block_waiting_time: Option<BlockWaitingTime>,
    /// BGT of T=1 in etu, 22: the least from the last character of a block to the first of one the
    /// other way.
    pub block_guard_time: u16,
    /// The mode, by TA2; negotiable without it.
    pub mode: Mode,
    /// Whether the clock may stop, by the first TA for T=15; it may not without it.
    pub clock_stop: ClockStop,
    /// The classes of voltage, by the first TA for T=15; A alone without it.
    pub classes: Option<Classes>,
    /// The historical bytes, at most 15.
    pub historical: &'a [u8],
    /// Their form.
    pub category: Category,
    protocols: [u8; PROTOCOLS_LIMIT],
    protocol_count: usize,
    guard: [u16; 3],
}

impl<'a> Atr<'a> {
    /// Reads an answer to reset: `bytes` is all of it and no more. In the inverse convention the
    /// bytes are as they are meant: TS is `3F`.
    ///
    /// # Errors
    ///
    /// - [`AtrError`]: the bytes are not an answer to reset; this is their first fault.
    pub fn read(bytes: &'a [u8]) -> Result<Atr<'a>, AtrError> {
        let (mut told, mut place) = (raw::Atr::default(), 0);
        let code = raw::Library::galliumtoad_atr_read(bytes, &mut told, &mut place);
        if code == raw::OK {
            Ok(Atr::of(&told, bytes))
        } else {
            Err(AtrError {
                place,
                reason: AtrReason::of(code),
            })
        }
    }

    /// What the library has found in these bytes.
    fn of(told: &raw::Atr, bytes: &'a [u8]) -> Atr<'a> {
        Atr {
            convention: match told.convention {
                0 => Convention::Direct,
                _ => Convention::Inverse,
            },
            names_15: told.names_15 != 0,
            rate_code: told.rate_code,
            fi: Some(told.fi).filter(|&fi| fi != 0),
            max_khz: Some(told.max_khz).filter(|&khz| khz != 0),
            di: Some(told.di).filter(|&di| di != 0),
            extra_guard_time: told.extra_guard_time,
            waiting_integer: Some(told.waiting_integer).filter(|&wi| wi != 0),
            waiting_time: Some(told.waiting_time).filter(|&cycles| cycles != 0),
            ifsc: Some(told.t1.ifsc).filter(|&size| size != 0),
            edc: [Edc::Lrc, Edc::Crc]
                .into_iter()
                .find(|&it| it as u8 == told.t1.edc),
            block_waiting_integer: Some(told.t1.bwi).filter(|_| told.t1.bwt_etu != 0),
            character_waiting_integer: told.t1.cwi,
            character_waiting_time: told.t1.cwt_etu,
            block_waiting_time: BlockWaitingTime::of(told),
            block_guard_time: told.t1.bgt_etu,
            mode: Mode::of(told),
            clock_stop: ClockStop::of(told.clock_stop),
            classes: Classes::of(told.classes),
            historical: &bytes[told.historical.0..][..told.historical_count.0],
            category: Category::of(told.category),
            protocols: told.protocols,
            protocol_count: usize::from(told.protocol_count),
            guard: [told.guard_etu, told.guard_etu_t1, told.guard_indicated],
        }
    }

    /// Returns T of each protocol in the order offered, each once: T=0 alone if the answer names
    /// none. T=15 is not a protocol.
    #[must_use]
    pub fn protocols(&self) -> &[u8] {
        &self.protocols[..self.protocol_count]
    }

    /// Returns the guard time of this protocol: 12 etu and N. N counts etu, or Fi/Di clock cycles
    /// if T=15 is named. N = 255 means the least of the protocol: 11 etu in T=1, 12 in any other.
    #[must_use]
    pub fn guard_time(&self, protocol: u8) -> GuardTime {
        let [etu, etu_t1, indicated] = self.guard;
        GuardTime {
            etu: if protocol == 1 { etu_t1 } else { etu },
            indicated,
        }
    }

    /// Returns the times of the line without a PPS, at a clock of this frequency in Hz. `None` if
    /// it is 0, or if the rate is reserved or not stated.
    #[must_use]
    pub fn waits(&self, clock: u32) -> Option<Waits> {
        match self.mode {
            Mode::Negotiable => self.waits_at(clock, 0x11),
            Mode::Specific { is_implicit, .. } if is_implicit => None,
            Mode::Specific { .. } => self.waits_at(clock, self.rate_code),
        }
    }

    /// As [`waits`](Atr::waits), after a PPS that has agreed on this PPS1. `None` if `clock` is 0,
    /// or if PPS1 has a reserved code.
    #[must_use]
    pub fn waits_at(&self, clock: u32, pps1: u8) -> Option<Waits> {
        let at = [0x3B, 0x10, pps1];
        let at = Atr::read(&at).ok()?;
        let (fi, di) = (u64::from(at.fi?), u64::from(at.di?));
        let clock = Some(u64::from(clock)).filter(|&it| it > 0)?;
        // no more than 255 * 960 * 2048 cycles, so this fits
        let nanos = |cycles: u64, clock: u64| (cycles * 1_000_000_000 + clock - 1) / clock;
        let lasting = |etu: u16, cycles: u64| {
            Duration::from_nanos(nanos(u64::from(etu) * fi, di * clock) + nanos(cycles, clock))
        };
        let t1 = self.block_waiting_time.map(|it| T1Waits {
            block: lasting(it.etu, it.cycles),
            character: lasting(self.character_waiting_time, 0),
            guard: lasting(self.block_guard_time, 0),
        });
        let character = self.waiting_time.map(|it| lasting(0, it.into()));
        Some(Waits { character, t1 })
    }
}

/// As [`Atr::read`].
impl<'a> TryFrom<&'a [u8]> for Atr<'a> {
    type Error = AtrError;

    fn try_from(bytes: &'a [u8]) -> Result<Atr<'a>, AtrError> {
        Atr::read(bytes)
    }
}

impl Mode {
    fn of(told: &raw::Atr) -> Mode {
        match told.specific {
            0 => Mode::Negotiable,
            _ => Mode::Specific {
                t: told.specific_t,
                can_change: told.can_change != 0,
                is_implicit: told.implicit != 0,
            },
        }
    }
}

impl ClockStop {
    fn of(number: u8) -> ClockStop {
        match number {
            0 => ClockStop::NotSupported,
            1 => ClockStop::AtLow,
            2 => ClockStop::AtHigh,
            _ => ClockStop::AtEither,
        }
    }
}

impl Classes {
    fn of(bits: u8) -> Option<Classes> {
        (bits != 0).then_some(Classes {
            a: bits & 1 != 0,
            b: bits & 2 != 0,
            c: bits & 4 != 0,
        })
    }
}

impl BlockWaitingTime {
    fn of(told: &raw::Atr) -> Option<BlockWaitingTime> {
        (told.t1.bwt_etu != 0).then_some(BlockWaitingTime {
            etu: told.t1.bwt_etu,
            cycles: told.t1.bwt_cycles.0,
        })
    }
}

impl Category {
    fn of(number: u8) -> Category {
        match number {
            0 => Category::Absent,
            1 => Category::StatusBehind,
            2 => Category::DirReference,
            3 => Category::Objects,
            4 => Category::Reserved,
            _ => Category::Proprietary,
        }
    }
}
