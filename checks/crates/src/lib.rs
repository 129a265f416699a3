//! Tests of the libraries: memory that is there or is refused, which no contract can say.

mod apdu;
mod card;
mod command;
mod line;
mod pieces;
mod t1;
mod terminal;
mod tlv;
mod tools;
mod ways;
