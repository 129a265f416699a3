//! Memory for values, and how it is wiped.

use alloc::vec::Vec;
use core::ptr::addr_of;

/// The function that clears memory. A compiler drops a write to memory that nobody reads again. It
/// must read this pointer each time, and so call the function.
static CLEAR: unsafe fn(*mut u8, usize) = clear;

/// # Safety
///
/// `count` bytes from `at` on may be written to.
unsafe fn clear(at: *mut u8, count: usize) {
    at.write_bytes(0, count);
}

/// Writes zeros to `count` bytes. A compiler can't leave that out.
///
/// # Safety
///
/// `count` bytes from `at` on may be written to.
pub(crate) unsafe fn wipe_from(at: *mut u8, count: usize) {
    let clear = addr_of!(CLEAR).read_volatile();
    clear(at, count);
}

/// As [`wipe_from`], all of a slice.
pub(crate) fn wipe(room: &mut [u8]) {
    // SAFETY: all of a slice that is borrowed by `&mut`.
    unsafe { wipe_from(room.as_mut_ptr(), room.len()) }
}

/// A buffer of zeros, if there is memory for it.
pub(crate) fn room_for<T: Clone + Default>(count: usize) -> Option<Vec<T>> {
    let mut room = Vec::new();
    room.try_reserve_exact(count).ok()?;
    room.resize(count, T::default());
    Some(room)
}

/// A buffer on the stack, which a drop wipes.
pub(crate) struct Wiped<const N: usize>(pub(crate) [u8; N]);

impl<const N: usize> Drop for Wiped<N> {
    fn drop(&mut self) {
        wipe(&mut self.0);
    }
}

#[cfg(test)]
mod tests {
    use super::wipe;
    use alloc::vec;

    #[test]
    fn each_place_is_wiped() {
        for count in 0..40 {
            let mut room = vec![0xA5_u8; count];
            wipe(&mut room);
            assert_eq!(room, vec![0; count]);
        }
    }
}
