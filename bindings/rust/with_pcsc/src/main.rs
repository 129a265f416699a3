//! Reads an object of a card in the first PC/SC reader, at T=0 or T=1.

use galliumtoad::{whole_commands, Operation, Terminal, Transport};
use pcsc::{Context, Disposition, Protocol, Protocols, Scope, ShareMode};
use std::error::Error;

const AID: [u8; 7] = [0xA0, 0x00, 0x00, 0x00, 0x03, 0x10, 0x10];

fn main() -> Result<(), Box<dyn Error>> {
    let context = Context::establish(Scope::System)?;
    let names = context.list_readers_owned()?;
    let name = names.first().ok_or("no reader")?;
    let mut card = context.connect(name, ShareMode::Shared, Protocols::ANY)?;
    let protocol = card.status2_owned()?.protocol2();
    let card = card.transaction()?;
    let transmit = |sent: &[u8], answer: &mut [u8]| card.transmit(sent, answer).map(<[u8]>::len);
    let mut reader: Box<dyn Transport<Error = pcsc::Error>> = match protocol {
        Some(Protocol::T1) => Box::new(whole_commands(transmit)),
        _ => Box::new(transmit),
    };

    let mut terminal = Terminal::new()?;
    let answer = terminal.run(&mut *reader, Operation::Select(&AID))?;
    answer.status.ok()?;
    let answer = terminal.run(&mut *reader, Operation::Get(0x5F20))?.ok()?;
    answer
        .object(0x5F20)
        .ok_or("the answer is not the object 5F20")?;
    let digits: String = answer.data.iter().map(|it| format!("{it:02X}")).collect();
    println!("{digits}");
    drop(reader);
    let ended = card.end(Disposition::ResetCard);
    ended.map_err(|(_, error)| error)?;
    Ok(())
}
