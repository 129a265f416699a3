//! Safe Rust over the proved library galliumtoad: both ends of a smart card dialogue.
//!
#![doc = "[`Terminal`]: Terminal\n[`Card`]: Card\n[`Session`]: Session\n[`Exchange`]: Exchange"]
#![doc = "[`Objects`]: Objects\n[`Atr`]: Atr\n[`Pps`]: Pps\n[`T1`]: T1\n[`CardT1`]: CardT1\n"]
#![doc = "[`OwnCard`]: OwnCard\n"]
#![doc = include_str!("../README.md")]
#![no_std]
#![warn(missing_docs)]

extern crate alloc;
#[cfg(any(feature = "std", test))]
extern crate std;

mod atr;
mod buffers;
mod card;
mod card_t1;
mod error;
mod exchange;
#[cfg(heap_in_rust)]
mod heap;
mod in_progress;
mod meanings;
mod objects;
mod own_card;
mod passing;
mod pps;
mod raw;
mod session;
mod status;
mod t1;
mod t1_line;
mod tables;
mod terminal;
mod transport;
mod version;
mod whole;
mod wiped;

pub use atr::{
    Atr, AtrError, AtrReason, BlockWaitingTime, Category, Classes, ClockStop, Convention, Edc,
    GuardTime, Mode, T1Waits, Waits,
};
pub use atr::{ATR_LIMIT, PROTOCOLS_LIMIT};
pub use buffers::{ReceiveError, Sent, Stop};
pub use card::{Card, CardBuilder, Entry};
pub use card::{AID_LEAST, AID_LIMIT, APPS_LIMIT, ENTRIES_LIMIT, OBJECT_LIMIT};
pub use card::{PLANS_LIMIT, VALUE_LIMIT};
pub use card_t1::CardT1;
pub use error::Error;
pub use exchange::{Answer, Copied, DataSent, Exchange, Turn, RESPONSE_LIMIT};
pub use in_progress::InProgress;
pub use objects::{encode, find, head, Object, Objects, ObjectsError, Reason, LEVELS_LIMIT};
pub use own_card::{Application, Command, OwnCard, Response, DATA_LIMIT, OWN_LIMIT};
pub use pps::{Pps, PpsError, PPS_LIMIT};
pub use session::{End, Session};
pub use status::{Refused, Status};
pub use t1::{Block, Cause, Outcome, Received, T1Fault, T1Limits, T1};
pub use t1::{BLOCK_LIMIT, T1_EXTENSIONS, T1_TRIES};
pub use t1_line::{Line, T1Line};
pub use terminal::{Operation, Terminal};
pub use transport::{whole_commands, By, Level, RunError, Transport, WholeCommands};
pub use version::{version, version_fits};
pub use whole::{Due, Pdu, ANSWER_LIMIT, APDU_LIMIT, TPDU_LIMIT};
