//! A terminal over a reader that carries whole TPDUs: here a closure around a card in memory. It
//! selects an application, writes an object, and reads it.

use galliumtoad::{CardBuilder, Operation, Terminal};
use std::error::Error;

const AID: [u8; 7] = [0xA0, 0x00, 0x00, 0x00, 0x03, 0x10, 0x10];

fn main() -> Result<(), Box<dyn Error>> {
    let mut builder = CardBuilder::new()?;
    builder.app(&AID)?;
    builder.object(0x5F20, b"JOE")?;
    let mut card = builder.finish()?;
    // over PC/SC: |tpdu: &[u8], answer: &mut [u8]| card.transmit(tpdu, answer).map(<[u8]>::len)
    let mut reader = |tpdu: &[u8], answer: &mut [u8]| card.tpdu_into(tpdu, answer);

    let mut terminal = Terminal::new()?;
    for operation in [
        Operation::Select(&AID),
        Operation::Put(0x5F20, b"ANN"),
        Operation::Get(0x5F20),
    ] {
        let answer = terminal.run(&mut reader, operation)?;
        println!("{operation:?}: {} {}", answer.status, answer.status.text());
        if let Some(name) = answer.object(0x5F20) {
            println!("the name is {}", String::from_utf8_lossy(name.value));
        }
    }
    Ok(())
}
