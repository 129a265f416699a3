//! Tests answers to reset, PPS and the version. The expected values are worked out by hand from
//! ISO/IEC 7816-3, clauses 8, 9 and 11, and EMV Book 1.

use galliumtoad::{version, version_fits, Pps, PpsError, PPS_LIMIT};
use galliumtoad::{Atr, AtrReason, Waits, PROTOCOLS_LIMIT};
use std::time::Duration;

fn atr(bytes: &[u8]) -> Atr<'_> {
    Atr::read(bytes).expect("an answer to reset")
}

/// Answers to reset, and below each what `Debug` shows of some fields.
const ANSWERS: &str = "
3B6500002063CB6800
  convention: Direct, names_15: false, rate_code: 17, fi: Some(372), max_khz: Some(5000)
  di: Some(1), extra_guard_time: 0, waiting_integer: Some(10), waiting_time: Some(3571200)
  mode: Negotiable, clock_stop: NotSupported
  classes: Some(Classes { a: true, b: false, c: false }), historical: [32, 99, 203, 104, 0]
  category: Proprietary
3BE000FF8131FE4514
  extra_guard_time: 255
  ifsc: Some(254), edc: Some(Lrc), block_waiting_integer: Some(4), character_waiting_integer: 5
  character_waiting_time: 43
  historical: [], category: Absent
3B9F96801FC78031A073BE21136743200718000001A5
  names_15: true, rate_code: 150, fi: Some(512), max_khz: Some(5000), di: Some(32)
  waiting_time: Some(4915200)
  clock_stop: AtEither, classes: Some(Classes { a: true, b: true, c: true })
  historical: [128, 49, 160, 115, 190, 33, 19, 103, 67, 32, 7, 24, 0, 0, 1], category: Objects
3F00
  convention: Inverse
  ifsc: Some(32), edc: Some(Lrc), block_waiting_integer: Some(4), character_waiting_integer: 13
  character_waiting_time: 8203
  block_waiting_time: Some(BlockWaitingTime { etu: 11, cycles: 5713920 }), block_guard_time: 22
3B1071
  fi: None, max_khz: None, di: Some(1)
  waiting_time: None
3B109A
  max_khz: Some(5000), di: None
3B804000
  waiting_integer: None, waiting_time: None
3B8081A192F15045011160A6
  ifsc: Some(80), edc: Some(Crc), block_waiting_integer: Some(9), character_waiting_integer: 2
  character_waiting_time: 15
  block_waiting_time: Some(BlockWaitingTime { etu: 11, cycles: 182845440 }), block_guard_time: 22
3B8081210020
  block_waiting_integer: Some(0), character_waiting_integer: 0, character_waiting_time: 12
  block_waiting_time: Some(BlockWaitingTime { etu: 11, cycles: 357120 })
3B808121AF8F
  block_waiting_integer: None, character_waiting_integer: 15, character_waiting_time: 32779
  block_waiting_time: None
3B8081110010
  ifsc: None
3B8081410242
  edc: None
3B90111000
  mode: Specific { t: 0, can_change: true, is_implicit: false }
3B90111080
  mode: Specific { t: 0, can_change: false, is_implicit: false }
3B9011111181
  mode: Specific { t: 1, can_change: true, is_implicit: true }
3B80801F425D
  clock_stop: AtLow, classes: Some(Classes { a: false, b: true, c: false })
3B80801F849B
  clock_stop: AtHigh, classes: Some(Classes { a: false, b: false, c: true })
3B80801F051A
  classes: None
3B0100
  category: StatusBehind
3B0110
  category: DirReference
3B018F
  category: Reserved
";

#[test]
fn each_field_is_told() {
    let mut bytes = Vec::new();
    for line in ANSWERS.lines() {
        if let Some(fields) = line.strip_prefix("  ") {
            let shown = format!("{:?}", atr(&bytes));
            assert!(shown.contains(&format!(" {fields}")), "{fields}: {shown}");
        } else {
            let pairs = (0..line.len()).step_by(2);
            let byte = |at| u8::from_str_radix(&line[at..at + 2], 16).expect("digits");
            bytes = pairs.map(byte).collect();
        }
    }
}

/// The guard times for T=0 and T=1: each in etu, and in units of Fi/Di cycles.
fn guards(bytes: &[u8]) -> [(u16, u16); 2] {
    [0, 1].map(|t| {
        let guard = atr(bytes).guard_time(t);
        (guard.etu, guard.indicated)
    })
}

#[test]
fn guard_times_go_by_t_15() {
    assert_eq!(guards(b"\x3B\xC0\x05\x80\x1F\x03\x59"), [(12, 5), (12, 5)]);
    assert_eq!(guards(b"\x3B\xC0\xFF\x80\x1F\x03\xA3"), [(12, 0), (11, 0)]);
    assert_eq!(atr(b"\x3B\x40\xFF").guard_time(2).etu, 12);
    assert_eq!(atr(b"\x3B\x40\xFF").guard_time(15).etu, 12);
}

#[test]
fn protocols_are_told_in_order() {
    assert_eq!(atr(b"\x3B\x00").protocols(), [0]);
    assert_eq!(atr(b"\x3B\x80\x8E\x0F\x01").protocols(), [14]);
    let all =
        b"\x3B\x80\x80\x81\x82\x83\x84\x85\x86\x87\x88\x89\x8A\x8B\x8C\x8D\x0E\x8F".as_slice();
    let protocols: Vec<u8> = (0..15).collect();
    assert_eq!(atr(all).protocols(), protocols);
    assert_eq!(atr(all).protocols().len(), PROTOCOLS_LIMIT);
}

#[test]
fn a_fault_has_its_place() {
    let bytes = &b"\x3B\x80\x81\x00"[..];
    let fault = Atr::read(bytes).expect_err("a fault");
    assert_eq!((fault.place, fault.reason), (3, AtrReason::OutOfOrder));
    assert_eq!(fault.to_string(), "T out of order at 3");
    assert_eq!(Atr::try_from(bytes), Err(fault));
}

#[test]
fn requests_have_what_is_asked_for() {
    let all = Pps {
        t: 1,
        pps1: Some(0x18),
        pps2: Some(0x01),
        pps3: Some(0x02),
    };
    let bytes = b"\xFF\x71\x18\x01\x02\x95".to_vec();
    assert_eq!(bytes.len(), PPS_LIMIT);
    assert_eq!(all.request(), Some(bytes));
    let request = |pps: Pps| pps.request().expect("a request");
    assert_eq!(request(Pps::default()), b"\xFF\x00\xFF");
    let none = Pps {
        t: 16,
        ..Pps::default()
    };
    assert_eq!(none.request(), None);
    assert_eq!(none.agreed(b"\xFF\x00\xFF"), Err(PpsError::Argument));
}

/// The page of `Pps` has one that agrees, and one that does not.
#[test]
fn responses_without_a_parameter_agree() {
    let asked = Pps {
        pps1: Some(0x96),
        ..Pps::default()
    };
    assert_eq!(asked.agreed(b"\xFF\x00\xFF"), Ok(true));
    let fault = asked.agreed(b"\xFF\x10\x96\x78").expect_err("a fault");
    assert_eq!(fault, PpsError::CheckWrong);
    assert_eq!(fault.to_string(), "wrong PCK");
}

#[test]
fn the_library_is_of_this_version() {
    let own = env!("CARGO_PKG_VERSION");
    let (major, minor, patch) = version();
    assert_eq!(format!("{major}.{minor}.{patch}"), own);
    assert!(version_fits());
}

/// Times by hand from the clauses: WT 10.2, CWT and BWT 11.4.3, with etu of F/D cycles.
#[test]
fn lines_have_times() {
    let plain = atr(b"\x3B\x00");
    let micros = |it: Duration| it.as_nanos() as f64 / 1000.0;
    let told = |waits: Waits| {
        let t1 = waits.t1.expect("T=1");
        let of_t0 = waits.character.expect("T=0");
        [of_t0, t1.block, t1.character, t1.guard].map(micros)
    };
    // an etu of 100 us; 10 * 960 * 372 cycles; 11 etu and 16 * 960 * 372 cycles; 8203 and 22 etu
    let waits = plain.waits(3_720_000).expect("a rate");
    assert_eq!(told(waits), [960_000.0, 1_537_100.0, 820_300.0, 2_200.0]);
    // an etu of 512/32 cycles, 4 us, if both agree on it
    let waits = plain.waits_at(4_000_000, 0x96).expect("a rate");
    assert_eq!(told(waits), [892_800.0, 1_428_524.0, 32_812.0, 88.0]);
    // TA1 is 96: it holds from the start in specific mode, and WT goes by its Fi
    let specific = atr(b"\x3B\x90\x96\x10\x00");
    let waits = specific.waits(4_000_000).expect("a rate");
    assert_eq!(told(waits), [1_228_800.0, 1_428_524.0, 32_812.0, 88.0]);
    let negotiable = atr(b"\x3B\x10\x96");
    let waits = negotiable.waits(3_720_000).expect("a rate");
    assert_eq!(told(waits)[2..], [820_300.0, 2_200.0]);
    // 22 etu are 8184 cycles: each time is rounded up
    let guard = plain.waits(7).expect("a rate").t1.expect("T=1").guard;
    assert_eq!(guard, Duration::from_nanos(1_169_142_857_143));
}

#[test]
fn times_are_of_any_length_or_not_known() {
    let plain = atr(b"\x3B\x00");
    assert_eq!(plain.waits(0), None);
    for reserved in [0x7F, 0x70, 0x1F, 0x10, 0x71] {
        assert_eq!(plain.waits_at(4_000_000, reserved), None);
    }
    // implicit values in specific mode: bit 5 of TA2
    let implicit = atr(b"\x3B\x90\x96\x10\x10");
    assert_eq!(implicit.waits(4_000_000), None);
    assert!(implicit.waits_at(4_000_000, 0x96).is_some());
    // TB3 has a reserved BWI; WI is reserved
    let no_bwi = atr(b"\x3B\x80\x81\x21\xA0\x80");
    let waits = no_bwi.waits(4_000_000).expect("a rate");
    assert!(waits.t1.is_none() && waits.character.is_some());
    let no_wi = atr(b"\x3B\x80\x40\x00");
    let waits = no_wi.waits(4_000_000).expect("a rate");
    assert!(waits.t1.is_some() && waits.character.is_none());
    // BWI 9 and CWI 15 at the slowest clock, with an etu of 2048/64 cycles
    let slow = atr(b"\x3B\x80\x81\x21\x9F\xBF");
    let waits = slow.waits_at(1, 0xD7).expect("a rate").t1.expect("T=1");
    assert_eq!(waits.block, Duration::from_secs(512 * 960 * 372 + 352));
    assert_eq!(waits.character, Duration::from_secs(32_779 * 32));
    // WI 255 with Fi 2048
    let longest = atr(b"\x3B\x90\xD7\x40\xFF");
    let waits = longest.waits_at(1, 0xD7).expect("a rate");
    assert_eq!(waits.character, Some(Duration::from_secs(255 * 960 * 2048)));
}
