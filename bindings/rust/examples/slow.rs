//! A card of your own that works for half a second, in a thread. Meanwhile the terminal waits.

use galliumtoad::{Application, Command, OwnCard, ReceiveError, Response, Status};
use std::thread::{sleep, spawn, JoinHandle};
use std::time::Duration;

/// The work that has begun, with the header of its command.
struct Slow(Option<([u8; 4], JoinHandle<u8>)>);

impl Slow {
    /// Begins the work of this command, unless it has begun.
    fn work(&mut self, header: [u8; 4]) -> JoinHandle<u8> {
        match self.0.take() {
            Some((begun, work)) if begun == header => work,
            _ => spawn(move || {
                sleep(Duration::from_millis(500));
                header[3] + 1
            }),
        }
    }
}

impl Application for Slow {
    fn takes_data(&self, _: [u8; 4]) -> bool {
        false
    }

    fn more_time(&mut self, command: Command<'_>) -> u8 {
        let work = self.work(command.header);
        sleep(Duration::from_millis(100));
        let multiple = u8::from(!work.is_finished());
        self.0 = Some((command.header, work));
        multiple
    }

    fn carry_out(&mut self, command: Command<'_>, response: &mut Response) -> Status {
        match self.work(command.header).join() {
            Ok(byte) => {
                response.extend(&[byte]);
                Status(0x9000)
            }
            Err(_) => Status(0x6F00),
        }
    }

    fn reset(&mut self) {
        self.0 = None;
    }
}

fn main() -> Result<(), ReceiveError> {
    let (mut card, mut room) = (OwnCard::new(Slow(None)).expect("memory"), [0; 9]);
    card.receive_bytes(&[0x80, 0x10, 0x00, 0x01, 0x01])?;
    let mut nulls = 0;
    loop {
        let sent = card.send_bytes(&mut room).expect("a response");
        match room[..sent.count] {
            [] => break,
            [0x60] => nulls += 1,
            ref answer => println!("{answer:02X?} after NULLs: {}", nulls > 0),
        }
    }
    Ok(())
}
