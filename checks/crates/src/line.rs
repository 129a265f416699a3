//! What allocates in `t0_core`: memory that is there, or is refused.

use crate::tools::{CALLS, serves_after_refusals};
use apdu_core::Header;
use std::alloc::Allocator;
use std::process::Abort;
use t0_core::{End, Gather, HostEnd, Plan, PlanQueue, Recorder, Step, Watch};

#[test]
fn a_gather_has_any_room(rt: HostRuntime) {
    for room in (0..=16_384).step_by(8) {
        assert!(&rt; Gather::with_room(rt.alloc(), room).is_ok(), "{room} bytes");
    }
    serves_after_refusals(&rt, 0, 16, |heap| Gather::with_room(heap, 256).is_ok());
}

/// `into_bytes` shrinks the buffer to the data, so that the rest can be allocated again.
#[test]
fn unfilled_room_is_given_back(rt: HostRuntime) {
    let header = Header {
        cla: 0x00,
        ins: 0xCA,
        p1: 0x00,
        p2: 0x00,
    };
    serves_after_refusals(&rt, 256, 16, |heap| {
        let Ok(mut gather) = Gather::with_room(heap, 256) else {
            return false;
        };
        let mut end = HostEnd::asking(header, 1);
        for _ in 0..5 {
            end.next();
        }
        for byte in [0xCA, 0x41] {
            assert!(&rt; end.take(byte, &mut gather).is_ok());
        }
        let bytes = gather.into_bytes();
        assert!(&rt; bytes.as_slice() == [0x41].as_slice());
        Gather::with_room(heap, 256).is_ok()
    });
}

/// A plan of this many steps.
fn plan<A: Allocator>(rt: &impl Abort, memory: A, steps: usize) -> Plan<A> {
    let steps = vec![in memory; Step::Null; steps].expect(rt, "memory");
    Plan::new(steps, 256).expect(rt, "a plan")
}

/// Thousands of plans, of up to 5,000 steps, wait at once; then each is taken before the next.
#[test]
fn a_queue_takes_plans(rt: HostRuntime) {
    let mut queue = PlanQueue::new(rt.alloc());
    for number in 0..2 * CALLS {
        let steps = if number % 100 == 0 { number / 2 } else { 1 };
        assert!(&rt;
            queue.push(plan(&rt, rt.alloc(), steps)).is_ok(),
            "plan {number}"
        );
        if number >= CALLS {
            queue.advance();
        }
    }
    assert!(&rt; queue.len() == CALLS);
}

/// Each growth of a queue is refused in turn. It takes the plan once others are taken.
#[test]
fn a_queue_without_memory(rt: HostRuntime) {
    serves_after_refusals(&rt, 64, 16, |heap| {
        let mut queue = PlanQueue::new(heap);
        for number in 0..64 {
            if queue.push(plan(&rt, heap, 0)).is_err() {
                assert!(&rt; queue.len() == number);
                for _ in 0..number {
                    queue.advance();
                }
                assert!(&rt; number == 0 || queue.push(plan(&rt, heap, 0)).is_ok());
                return false;
            }
        }
        true
    });
}

/// Records characters. Returns how many until one is lost.
fn recorded<A: Allocator>(recorder: &mut Recorder<A>, characters: usize) -> usize {
    for place in 0..characters {
        recorder.seen(End::Card, (place % 256) as u8);
    }
    recorder.heard().len()
}

#[test]
fn a_recorder_keeps_characters(rt: HostRuntime) {
    let mut recorder = Recorder::new(rt.alloc());
    assert!(&rt; recorded(&mut recorder, 100_000) == 100_000 && !recorder.lost());
}

/// Each growth is refused in turn: the recorder keeps what it had recorded until then.
#[test]
fn a_recorder_without_memory(rt: HostRuntime) {
    let mut longest = 0;
    serves_after_refusals(&rt, 0, 256, |heap| {
        let mut recorder = Recorder::new(heap);
        let count = recorded(&mut recorder, CALLS);
        assert!(&rt; count >= longest && recorder.lost() == (count < CALLS));
        longest = count;
        count == CALLS
    });
}
