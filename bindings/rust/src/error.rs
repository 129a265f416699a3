//! Why a call was refused, and the codes of `galliumtoad.h`.

use crate::raw::BUFFER;
use crate::wiped::room_for;
use alloc::vec::Vec;

/// Shows a type in one format.
macro_rules! shown {
    ($(#[$doc:meta])* $kind:ident for $name:ty: $it:ident => $($format:tt)+) => {
        $(#[$doc])*
        impl core::fmt::$kind for $name {
            fn fmt(&self, f: &mut core::fmt::Formatter<'_>) -> core::fmt::Result {
                let $it = self;
                write!(f, $($format)+)
            }
        }
    };
}
pub(crate) use shown;

/// Declares the codes of one kind of fault, each with its number and its text in the header.
macro_rules! codes {
    (
        $(#[$of:meta])* $name:ident
        { $($(#[$doc:meta])* $fault:ident = $code:literal, $text:literal;)* }
    ) => {
        $(#[$of])*
        #[derive(Clone, Copy, Debug, PartialEq, Eq, Hash)]
        #[non_exhaustive]
        pub enum $name {
            $($(#[$doc])* $fault,)*
            /// A number that this crate does not know.
            Unknown(i32),
        }

        impl $name {
            /// The number that `galliumtoad.h` gives the fault.
            #[must_use]
            pub fn code(self) -> i32 {
                match self {
                    $($name::$fault => $code,)*
                    $name::Unknown(code) => code,
                }
            }

            pub(crate) fn of(code: i32) -> $name {
                match code {
                    $($code => $name::$fault,)*
                    _ => $name::Unknown(code),
                }
            }
        }

        impl core::fmt::Display for $name {
            fn fmt(&self, f: &mut core::fmt::Formatter<'_>) -> core::fmt::Result {
                match self {
                    $($name::$fault => f.write_str($text),)*
                    $name::Unknown(code) => write!(f, "unknown code {code}"),
                }
            }
        }
    };
}
pub(crate) use codes;

codes! {
    /// Why a call was refused. Each fault has the number that `galliumtoad.h` gives it.
    Error {
        /// The state of the value does not allow this call. For example, an operation is in
        /// progress, none has begun, or there is no answer. Or it goes by the other level,
        /// characters of a TPDU have passed, nobody listens, or an end at T=1 awaits no block.
        State = -3, "not in this state";
        /// Memory ran out.
        Memory = -4, "out of memory";
        /// An argument is out of its range. Of a session also: its ends would not agree which way
        /// the data of a command go. Of a card of your own: its application answered what none may.
        Argument = -5, "bad argument";
        /// There is too little room for the output: the caller's buffer is too short, and is
        /// unchanged, or there is no memory for a buffer. The output stays, or nothing was carried
        /// out: ask again.
        Buffer = -6, "buffer too short";
        /// A chain is pending at the card.
        Busy = -7, "a chain is pending";
        /// There is no answer yet.
        NotFound = -8, "not found";
        /// The exchange or operation has failed for good, or the end at T=1 gave up.
        Failed = -9, "failed";
        /// As many plans wait as may, [`PLANS_LIMIT`](crate::PLANS_LIMIT).
        Plans = -10, "too many plans";
        /// An earlier application has this identifier.
        AppTwice = -20, "aid twice";
        /// The card has as many applications as it may.
        TooManyApps = -21, "too many apps";
        /// There is no application to hold the data object.
        NoApp = -22, "no app";
        /// The value exceeds [`VALUE_LIMIT`](crate::VALUE_LIMIT).
        ValueTooLong = -23, "value too long";
        /// The tag is that of a template, and the value is not a list of objects, or has more than
        /// 15 levels.
        NotObjects = -24, "not objects";
        /// The tag is new, and the application has [`ENTRIES_LIMIT`](crate::ENTRIES_LIMIT) data
        /// objects.
        TableFull = -25, "table full";
        /// The end has characters to send, or a card has to call its application first.
        NotListening = -30, "not listening";
        /// Unexpected byte: neither a procedure byte nor a first status byte.
        BadProcedure = -31, "bad procedure byte";
        /// The response exceeds its limit: 16,384 bytes, or fewer.
        TooLong = -32, "response too long";
        /// A GET RESPONSE of the exchange's own brought nothing, and the card announces more.
        Stalled = -33, "stalled";
        /// The exchange or operation has ended or failed, or no operation has begun.
        AfterEnd = -34, "after the end";
        /// There are fewer than four bytes.
        TooShort = -50, "command too short";
        /// The bytes after the header fit none of the four cases.
        BadLength = -51, "bad command length";
        /// INS is `6X` or `9X`, and the bytes after the header fit a case.
        InvalidIns = -52, "invalid INS";
        /// No whole TPDU or command is about to begin.
        NotDue = -60, "nothing due";
        /// The answer does not end in a status word.
        NoStatus = -61, "no status";
        /// Data came back, and none may: the TPDU sends data or is the header alone, or the
        /// command has no Le.
        NotAsked = -62, "data not asked for";
        /// More data came back than the TPDU or command asks for, or a transport or a line claims
        /// more bytes than its buffer has.
        TooMany = -63, "more data than asked for";
        /// The bytes are not a whole TPDU.
        NoTpdu = -64, "no whole TPDU";
        /// The card takes data, and the TPDU has none: deadlock.
        WantsData = -65, "card expects data not sent";
        /// The card sends data, and the TPDU asks for none.
        SendsData = -66, "card sends data not asked for";
    }
}

/// `core` has the trait from Rust 1.81 on, so without `std` no type of this crate has it.
#[cfg(feature = "std")]
mod with_std {
    use std::error::Error;

    macro_rules! errors {
        ($($name:ident)*) => { $(impl Error for crate::$name {})* };
    }
    errors!(Error AtrError ObjectsError PpsError ReceiveError Refused T1Fault);

    impl<E: Error> Error for crate::RunError<E> {
        fn source(&self) -> Option<&(dyn Error + 'static)> {
            match self {
                crate::RunError::Terminal(error) => error.source(),
                crate::RunError::Transport(error) => error.source(),
            }
        }
    }
}

/// The result if the code is 0 or above, else the fault.
#[inline]
pub(crate) fn told(code: i32) -> Result<i32, Error> {
    if code < 0 {
        Err(Error::of(code))
    } else {
        Ok(code)
    }
}

/// As [`told`], for a call without a result.
#[inline]
pub(crate) fn done(code: i32) -> Result<(), Error> {
    told(code).map(|_| ())
}

/// All that a call copies, in no more memory than it needs, or the fault of the call, or
/// [`Error::Buffer`] without memory.
pub(crate) fn all<T: Clone + Default>(
    mut copies: impl FnMut(&mut [T], &mut usize) -> i32,
) -> Result<Vec<T>, Error> {
    let (mut room, mut count) = (Vec::new(), 0);
    let mut code = copies(&mut room, &mut count);
    if code == BUFFER {
        room = room_for(count).ok_or(Error::Buffer)?;
        code = copies(&mut room, &mut count);
    }
    done(code).map(|()| room)
}
