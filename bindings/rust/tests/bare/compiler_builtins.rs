//! In place of the crate that Debian's package of sources lacks: the functions over bytes that
//! compiled code calls. Each is volatile, so that it is not compiled to a call of itself.
#![no_std]
#![feature(compiler_builtins)]
#![compiler_builtins]

#[no_mangle]
pub unsafe extern "C" fn memcpy(to: *mut u8, from: *const u8, count: usize) -> *mut u8 {
    for i in 0..count {
        to.add(i).write_volatile(*from.add(i));
    }
    to
}

#[no_mangle]
pub unsafe extern "C" fn memmove(to: *mut u8, from: *const u8, count: usize) -> *mut u8 {
    if (to as usize) < from as usize {
        return memcpy(to, from, count);
    }
    for i in (0..count).rev() {
        to.add(i).write_volatile(*from.add(i));
    }
    to
}

#[no_mangle]
pub unsafe extern "C" fn memset(to: *mut u8, byte: i32, count: usize) -> *mut u8 {
    for i in 0..count {
        to.add(i).write_volatile(byte as u8);
    }
    to
}

#[no_mangle]
pub unsafe extern "C" fn memcmp(one: *const u8, two: *const u8, count: usize) -> i32 {
    for i in 0..count {
        let (a, b) = (one.add(i).read_volatile(), two.add(i).read_volatile());
        if a != b {
            return a as i32 - b as i32;
        }
    }
    0
}

#[no_mangle]
pub unsafe extern "C" fn bcmp(one: *const u8, two: *const u8, count: usize) -> i32 {
    memcmp(one, two, count)
}

/// What compiled code for 32-bit ARM calls in place of these.
#[cfg(target_arch = "arm")]
mod aeabi {
    use super::{memcpy, memmove, memset};

    macro_rules! as_named {
        ($($copy:ident $moved:ident $set:ident $clear:ident)*) => {$(
            #[no_mangle]
            pub unsafe extern "C" fn $copy(to: *mut u8, from: *const u8, count: usize) {
                memcpy(to, from, count);
            }

            #[no_mangle]
            pub unsafe extern "C" fn $moved(to: *mut u8, from: *const u8, count: usize) {
                memmove(to, from, count);
            }

            #[no_mangle]
            pub unsafe extern "C" fn $set(to: *mut u8, count: usize, byte: i32) {
                memset(to, byte, count);
            }

            #[no_mangle]
            pub unsafe extern "C" fn $clear(to: *mut u8, count: usize) {
                memset(to, 0, count);
            }
        )*};
    }

    as_named! {
        __aeabi_memcpy __aeabi_memmove __aeabi_memset __aeabi_memclr
        __aeabi_memcpy4 __aeabi_memmove4 __aeabi_memset4 __aeabi_memclr4
        __aeabi_memcpy8 __aeabi_memmove8 __aeabi_memset8 __aeabi_memclr8
    }
}
