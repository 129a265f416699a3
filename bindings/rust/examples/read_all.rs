//! Reads all objects of a card into a struct: here of a card in memory, by whole commands.

use galliumtoad::{whole_commands, CardBuilder, Objects, Operation, Terminal, Transport};
use std::error::Error;

const AID: [u8; 7] = [0xA0, 0x00, 0x00, 0x00, 0x03, 0x10, 0x10];

#[derive(Debug, Default)]
struct Person {
    name: String,
    languages: Vec<String>,
}

/// The person on the card: the name under 5F20, and languages under 5F2D in the template 65.
fn read(card: &mut impl Transport<Error = galliumtoad::Error>) -> Result<Person, Box<dyn Error>> {
    let (mut terminal, mut person) = (Terminal::new()?, Person::default());
    terminal.run(card, Operation::Select(&AID))?.status.ok()?;
    for tag in [0x5F20, 0x65] {
        let answer = terminal.run(card, Operation::Get(tag))?.ok()?;
        for object in Objects::over(&answer.data)? {
            let text = || String::from_utf8(object.value.to_vec());
            match object.tag {
                0x5F20 => person.name = text()?,
                0x5F2D => person.languages.push(text()?),
                _ => {}
            }
        }
    }
    Ok(person)
}

fn main() -> Result<(), Box<dyn Error>> {
    let mut builder = CardBuilder::new()?;
    builder.app(&AID)?;
    builder.object(0x5F20, b"JOE")?;
    builder.object(0x65, b"\x5F\x2D\x02en\x5F\x2D\x02fr")?;
    let mut card = builder.finish()?;
    let mut reader = whole_commands(|command, answer| card.apdu_into(command, answer));
    println!("{:?}", read(&mut reader)?);
    Ok(())
}
