//! A session: a terminal and a card in one program, and every operation carried out to its answer.
//! An object is read, written and read again, and one that is locked is not written.

use galliumtoad::{Answer, CardBuilder, Error, Session};

const AID: [u8; 7] = [0xA0, 0x00, 0x00, 0x00, 0x03, 0x10, 0x10];

fn print(what: &str, answer: &Answer) {
    print!("{what}: {} ", answer.status);
    for byte in &answer.data {
        print!("{byte:02X}");
    }
    println!();
}

fn main() -> Result<(), Error> {
    let mut builder = CardBuilder::new()?;
    builder.app(&AID)?;
    builder.object(0x5F20, b"JOE")?;
    builder.locked(0x50, b"VISA")?;
    let mut session = Session::start(builder.finish()?)?;

    print("select", &session.select(&AID)?);
    print("get", &session.get(0x5F20)?);
    println!("put: {}", session.put(0x5F20, b"ANN")?);
    print("get", &session.get(0x5F20)?);
    println!("put of a locked object: {}", session.put(0x50, b"NEW")?);
    Ok(())
}
