//! What allocates in `apdu_core`: memory that is there, or is refused.

use crate::tools::{CALLS, serves_after_refusals};
use apdu_core::{Chain, Command, Header};

/// PUT DATA of `5F20`.
const PUT: Header = Header {
    cla: 0x00,
    ins: 0xDA,
    p1: 0x5F,
    p2: 0x20,
};

/// The forms of Le: none, one byte, and `00` for 256 (ISO/IEC 7816-4, 5.1).
const LE: [Option<u16>; 3] = [None, Some(1), Some(256)];

/// Commands of each case with each number of data bytes, behind one another.
#[test]
fn thousands_of_commands_are_written(rt: HostRuntime) {
    let data = [0x41; 255];
    let mut out = Vec::new(rt.alloc());
    for number in 0..2 * CALLS {
        let command = Command::new(PUT, &data[..number % 256], LE[number % 3]);
        let command = command.expect(&rt, "a command");
        assert!(&rt; command.write(&mut out).is_ok(), "command {number}");
    }
}

#[test]
fn a_chain_has_any_room(rt: HostRuntime) {
    for room in (0..=8_192).step_by(8) {
        assert!(&rt; Chain::with_room(rt.alloc(), room).is_ok(), "{room} bytes");
    }
    assert!(&rt; Chain::with_room(rt.alloc(), 1_000_000).is_ok());
}

#[test]
fn each_request_is_refused(rt: HostRuntime) {
    let command = Command::new(PUT, &[0x41; 255], Some(256)).expect(&rt, "a command");
    serves_after_refusals(
        &rt,
        0,
        16,
        |heap| command.write(&mut Vec::new(heap)).is_ok(),
    );
    serves_after_refusals(&rt, 0, 256, |heap| Chain::with_room(heap, 8_192).is_ok());
}
