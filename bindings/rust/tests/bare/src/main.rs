//! A program for a target without an operating system: no C library, no `std`, and memory from an
//! array. It only asks Linux, or on a Cortex-M the debugger, to end it, with status 42 if the card
//! answered as it should.
#![no_std]
#![no_main]
#![feature(alloc_error_handler)]

use core::alloc::{GlobalAlloc, Layout};
use core::arch::{asm, global_asm};
use core::ptr::{addr_of_mut, null_mut};
use core::sync::atomic::{AtomicUsize, Ordering::Relaxed};
use galliumtoad::{By, CardBuilder, Operation, Terminal};

#[cfg(target_arch = "x86_64")]
global_asm!(".globl _start", "_start:", "and rsp, -16", "call begin");
#[cfg(target_arch = "aarch64")]
global_asm!(".globl _start", "_start:", "bl begin");

// where the stack begins, and the start
#[cfg(target_arch = "arm")]
global_asm!(
    ".section .vectors, \"a\"",
    ".word stack_top",
    ".word begin"
);

fn end(status: u64) -> ! {
    #[cfg(target_arch = "x86_64")]
    unsafe {
        asm!("syscall", in("rax") 60_u64, in("rdi") status, options(noreturn))
    }
    #[cfg(target_arch = "aarch64")]
    unsafe {
        asm!("svc 0", in("x8") 93_u64, in("x0") status, options(noreturn))
    }
    // SYS_EXIT_EXTENDED, for ADP_Stopped_ApplicationExit
    #[cfg(target_arch = "arm")]
    unsafe {
        let why = [0x20026, status as u32];
        asm!("bkpt 0xAB", "b .", in("r0") 0x20, in("r1") &why, options(noreturn))
    }
}

const SIZE: usize = 1 << 20;

#[repr(align(16))]
struct Room([u8; SIZE]);

static mut ROOM: Room = Room([0; SIZE]);

struct Heap(AtomicUsize);

unsafe impl GlobalAlloc for Heap {
    unsafe fn alloc(&self, layout: Layout) -> *mut u8 {
        let size = (layout.size() + 15) / 16 * 16;
        let at = self.0.fetch_add(size, Relaxed);
        if layout.align() > 16 || at + size > SIZE {
            return null_mut();
        }
        addr_of_mut!(ROOM).cast::<u8>().add(at)
    }

    unsafe fn dealloc(&self, _: *mut u8, _: Layout) {}
}

#[global_allocator]
static HEAP: Heap = Heap(AtomicUsize::new(0));

#[panic_handler]
fn panicked(_: &core::panic::PanicInfo<'_>) -> ! {
    end(101)
}

#[alloc_error_handler]
fn full(_: Layout) -> ! {
    end(102)
}

// the `alloc` of a compiler with `std` names it, for panics that unwind
#[no_mangle]
extern "C" fn rust_eh_personality() {}

#[no_mangle]
extern "C" fn begin() -> ! {
    let aid = [0xA0, 0x00, 0x00, 0x00, 0x03, 0x10, 0x10];
    let mut builder = CardBuilder::new().unwrap();
    builder.app(&aid).unwrap();
    builder.locked(0x5F20, b"JOE").unwrap();
    let mut card = builder.finish().unwrap();
    let mut terminal = Terminal::new().unwrap();
    let selected = terminal.run(&mut By(&mut card), Operation::Select(&aid));
    selected.unwrap().status.ok().unwrap();
    let refused = terminal.run(&mut card, Operation::Put(0x5F20, b""));
    let refused = refused.unwrap().ok().unwrap_err();
    let name = terminal.run(&mut card, Operation::Get(0x5F20));
    let name = name.unwrap().ok().unwrap();
    let told = refused.status.text() == "security status not satisfied";
    let is_joe = name.object(0x5F20).unwrap().value == b"JOE";
    end(if told && is_joe { 42 } else { 1 })
}
