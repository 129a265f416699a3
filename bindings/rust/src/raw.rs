//! The archive's functions, as `galliumtoad.h` declares them, and safe ones over them. A call of
//! the archive is right if
//!
//! - a pointer with a count is that of a slice with its length. Every other one is that of a value
//!   of the type written here. So none is NULL, and each is aligned;
//! - what is written to does not overlap with anything else that is handed over;
//! - a handle holds nothing, or what the function's name says, and no other call has it.
//!
//! The safe function has slices and borrows in place of pointers, and is called on a [`Handle`] of
//! its kind.

use crate::version;
use crate::wiped::wipe;
use core::cell::UnsafeCell;
use core::ffi::c_void;
use core::fmt;
use core::marker::PhantomData;
use core::mem::size_of;
use core::ops::Deref;

/// A field that begins at a multiple of 8, as `GT_AT_8_` of the header has it: a size or a pointer
/// of 32 bits has room for 64, and the library writes all of them.
#[repr(C, align(8))]
#[derive(Clone, Copy, Debug, Default)]
pub struct At8<T>(pub T);

// the header's layout of 64-bit targets, on each target
const _: () = assert!(size_of::<Held>() == 16 && size_of::<Object>() == 40);
const _: () = assert!(size_of::<Atr>() == 96 && size_of::<AtrT1>() == 24);

/// What C sees of a handle: 16 bytes that only the library reads or writes.
#[repr(C)]
pub struct Held {
    live: bool,
    held: At8<*mut c_void>,
}

/// A kind of handle, and the function that a drop passes one of this kind to.
pub trait Kind {
    const FREES: unsafe extern "C" fn(*mut Held);
}

/// A handle, in a cell, since each function writes to it: it takes out what the handle holds, and
/// puts it back before it returns. A `&Handle` is enough for a call. A cell is not `Sync`, so no
/// other thread has one. The archive calls nothing that could call it again, except the three
/// functions for memory, and these the program's allocator. An allocator must not call this crate
/// (README, Memory), and writing one is `unsafe`. So no two calls have one handle at once.
pub struct Handle<K: Kind> {
    held: UnsafeCell<Held>,
    kind: PhantomData<K>,
}

// SAFETY: it is proved for each kind of handle that it may move to another thread. Whatever moves a
// Rust value there makes all that the first thread did happen before all that the second does. That
// is enough, because the archive has only plain reads and writes: no atomics, no thread-locals.
// The header's lock, thread and atomic are three ways to the same order in C. The functions for
// memory are those of a Rust allocator, or of `malloc`, or the program's own, which must allow it.
unsafe impl<K: Kind> Send for Handle<K> {}

impl<K: Kind> Handle<K> {
    /// Makes a handle that holds nothing, as `GT_INIT` of the header does.
    ///
    /// # Panics
    ///
    /// If the library does not fit this crate: see `version_fits`.
    pub fn empty() -> Handle<K> {
        version::look();
        let (live, held) = (false, At8(core::ptr::null_mut()));
        let held = UnsafeCell::new(Held { live, held });
        let kind = PhantomData;
        Handle { held, kind }
    }
}

impl<K: Kind> Drop for Handle<K> {
    fn drop(&mut self) {
        // SAFETY: a handle of the function's kind, which is not used again.
        unsafe { K::FREES(self.held.get()) }
    }
}

impl<K: Kind> fmt::Debug for Handle<K> {
    fn fmt(&self, f: &mut fmt::Formatter<'_>) -> fmt::Result {
        f.write_str("Handle")
    }
}

/// `gt_object` of the header.
#[repr(C)]
#[derive(Clone, Copy, Debug, Default)]
pub struct Object {
    pub tag: u32,
    pub level: u8,
    pub constructed: u8,
    pub place: At8<usize>,
    pub size: At8<usize>,
    pub value: At8<usize>,
    pub length: At8<usize>,
}

/// `gt_atr` of the header.
#[repr(C)]
#[derive(Clone, Copy, Debug, Default)]
pub struct Atr {
    pub length: At8<usize>,
    pub historical: At8<usize>,
    pub historical_count: At8<usize>,
    pub category: u8,
    pub convention: u8,
    pub protocol_count: u8,
    pub protocols: [u8; 15],
    pub names_15: u8,
    pub rate_code: u8,
    pub di: u8,
    pub extra_guard_time: u8,
    pub waiting_integer: u8,
    pub specific: u8,
    pub specific_t: u8,
    pub can_change: u8,
    pub implicit: u8,
    pub clock_stop: u8,
    pub classes: u8,
    pub fi: u16,
    pub max_khz: u16,
    pub guard_etu: u16,
    pub guard_etu_t1: u16,
    pub guard_indicated: u16,
    pub waiting_time: u32,
    pub t1: AtrT1,
}

/// `gt_atr_t1` of the header.
#[repr(C)]
#[derive(Clone, Copy, Debug, Default)]
pub struct AtrT1 {
    pub ifsc: u8,
    pub edc: u8,
    pub bwi: u8,
    pub cwi: u8,
    pub cwt_etu: u16,
    pub bwt_etu: u16,
    pub bgt_etu: u16,
    pub bwt_cycles: At8<u64>,
}

/// `gt_character` of the header.
#[repr(C)]
#[derive(Clone, Copy, Debug, Default)]
pub struct Character {
    pub from: u8,
    pub byte: u8,
}

/// `gt_command` of the header. A drop wipes its data.
#[repr(C)]
pub struct Command {
    pub cla: u8,
    pub ins: u8,
    pub p1: u8,
    pub p2: u8,
    pub le: u16,
    pub size: u8,
    pub data: [u8; 255],
}

impl Drop for Command {
    fn drop(&mut self) {
        wipe(&mut self.data);
    }
}

/// `GT_OK`: success; of a turn: the end listens.
pub const OK: i32 = 0;
/// `GT_SENDS`: a character to send, or the buffer is full. At T=1: the received block is whole.
pub const SENDS: i32 = 1;
/// `GT_DONE`: the exchange has ended, and has an answer. At T=1: there is no block to send.
pub const DONE: i32 = 2;
/// `GT_COMMAND`: a command waits for the response of a card of your own.
pub const COMMAND: i32 = 3;
/// `GT_HEADER`: a header waits for the way of its data.
pub const HEADER: i32 = 4;
/// `GT_ARGUMENT`: an argument is out of its range.
pub const ARGUMENT: i32 = -5;
/// `GT_BUFFER`: too little room for the output.
pub const BUFFER: i32 = -6;
/// `GT_NOT_FOUND`: what was asked for is not there.
pub const NOT_FOUND: i32 = -8;

/// `GT_TERMINAL`: the terminal sent the character. Any other number means the card.
pub const TERMINAL: u8 = 0;

/// `GT_NOT_CARRIED_OUT`: the card has not carried out the command.
pub const NOT_CARRIED_OUT: i32 = 0;
/// `GT_IN_PART`: the card has carried out the command, and sent a part of its response. Any third
/// number means that it is unknown whether it has.
pub const IN_PART: i32 = 2;

/// Declares functions of the archive, and the safe ones. Those for a kind of handle are methods of
/// such a handle, except the first, which frees it. Those without a handle look at the library's
/// version before, except the first, which returns it.
macro_rules! declared {
    (
        of Library; fn $version:ident() -> u32;
        $(fn $name:ident($($params:tt)*) -> i32;)*
    ) => {
        extern "C" {
            fn $version() -> u32;
            $(fn $name($($params)*) -> i32;)*
        }

        /// The functions without a handle.
        pub enum Library {}

        impl Library {
            pub fn $version() -> u32 {
                // SAFETY: nothing is handed over.
                unsafe { $version() }
            }

            $(safe! { [function $name] [] [] $($params)* })*
        }
    };
    (
        of $kind:ident; fn $free:ident($c:ident: At);
        $(fn $name:ident($e:ident: At $(, $($params:tt)*)?) -> i32;)*
    ) => {
        extern "C" {
            fn $free($c: At);
            $(fn $name($e: At $(, $($params)*)?) -> i32;)*
        }

        /// A kind of handle.
        pub enum $kind {}

        impl Kind for $kind {
            const FREES: unsafe extern "C" fn(*mut Held) = $free;
        }

        impl Handle<$kind> {
            $(safe! { [method $name] [] [] $($($params)*)? })*
        }
    };
}

/// Makes the safe form of a function: its kind and name, the parameters and the arguments so far,
/// and the parameters in C that are left.
macro_rules! safe {
    ([method $name:ident] [$($param:tt)*] [$($passed:expr,)*]) => {
        #[inline]
        pub fn $name(&self, $($param)*) -> i32 {
            // SAFETY: slices with their lengths, and borrows, so what is written to is apart; a
            // handle of the function's kind, which a call by `&` may write to (`Handle`).
            unsafe { $name(self.held.get(), $($passed),*) }
        }
    };
    ([function $name:ident] [$($param:tt)*] [$($passed:expr,)*]) => {
        pub fn $name($($param)*) -> i32 {
            version::look();
            // SAFETY: slices with their lengths, and borrows, so what is written to is apart.
            unsafe { $name($($passed),*) }
        }
    };
    ($it:tt $made:tt $passed:tt $a:ident: In, $n:ident: usize $(, $($left:tt)*)?) => {
        safe! { $it $made $passed $a: *const u8, $n: usize $(, $($left)*)? }
    };
    ($it:tt $made:tt $passed:tt $a:ident: Out, $n:ident: usize $(, $($left:tt)*)?) => {
        safe! { $it $made $passed $a: *mut u8, $n: usize $(, $($left)*)? }
    };
    (
        $it:tt [$($made:tt)*] [$($passed:tt)*]
        $a:ident: *const $of:ident, $n:ident: usize $(, $($left:tt)*)?
    ) => {
        safe! {
            $it [$($made)* $a: &[$of],] [$($passed)* $a.as_ptr(), $a.len(),] $($($left)*)?
        }
    };
    (
        $it:tt [$($made:tt)*] [$($passed:tt)*]
        $a:ident: *mut $of:ident, $n:ident: usize $(, $($left:tt)*)?
    ) => {
        safe! {
            $it [$($made)* $a: &mut [$of],] [$($passed)* $a.as_mut_ptr(), $a.len(),]
            $($($left)*)?
        }
    };
    ($it:tt [$($made:tt)*] [$($passed:tt)*] $a:ident: At $(, $($left:tt)*)?) => {
        safe! { $it [$($made)* $a: &Handle<Card>,] [$($passed)* $a.held.get(),] $($($left)*)? }
    };
    ($it:tt [$($made:tt)*] [$($passed:tt)*] $a:ident: Count $(, $($left:tt)*)?) => {
        safe! { $it [$($made)* $a: &mut usize,] [$($passed)* $a,] $($($left)*)? }
    };
    ($it:tt [$($made:tt)*] [$($passed:tt)*] $a:ident: *mut $of:ident $(, $($left:tt)*)?) => {
        safe! { $it [$($made)* $a: &mut $of,] [$($passed)* $a,] $($($left)*)? }
    };
    ($it:tt [$($made:tt)*] [$($passed:tt)*] $a:ident: $of:ident $(, $($left:tt)*)?) => {
        safe! { $it [$($made)* $a: $of,] [$($passed)* $a,] $($($left)*)? }
    };
}

include!("functions.rs");

/// The bytes that a call has copied to an array. They take no memory.
pub struct Copied<const N: usize>([u8; N], usize);

impl<const N: usize> Deref for Copied<N> {
    type Target = [u8];

    fn deref(&self) -> &[u8] {
        &self.0[..self.1]
    }
}

/// The bytes that a call copies to an array.
pub fn copied<const N: usize>(
    copies: impl FnOnce(&mut [u8], &mut usize) -> i32,
) -> Option<Copied<N>> {
    let (mut bytes, mut n) = ([0; N], 0);
    let code = copies(&mut bytes, &mut n);
    (code == OK).then_some(Copied(bytes, n))
}
