//! A card of your own: 80 10 00 00 counts, and returns the count.

use galliumtoad::{Application, Command, OwnCard, ReceiveError, Response, Status};

/// The count. It keeps commands that a reset drops.
struct Counter(u8);

impl Application for Counter {
    fn takes_data(&self, _: [u8; 4]) -> bool {
        false
    }

    fn carry_out(&mut self, command: Command<'_>, response: &mut Response) -> Status {
        if command.header != [0x80, 0x10, 0x00, 0x00] {
            return Status(0x6D00);
        }
        self.0 = self.0.wrapping_add(1);
        response.extend(&[self.0]);
        Status(0x9000)
    }
}

fn main() -> Result<(), ReceiveError> {
    let (mut card, mut room) = (OwnCard::new(Counter(0)).expect("memory"), [0; 9]);
    for _ in 0..2 {
        card.receive_bytes(&[0x80, 0x10, 0x00, 0x00, 0x01])?;
        let sent = card.send_bytes(&mut room).expect("a response");
        println!("{:02X?}", &room[..sent.count]);
    }
    Ok(())
}
