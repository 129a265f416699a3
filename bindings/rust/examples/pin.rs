//! A card of your own with a file and a PIN of three tries: VERIFY, READ and UPDATE BINARY.

use galliumtoad::{Application, Command, OwnCard, ReceiveError, Response, Status};

/// `next` is the file once the command settles.
#[derive(Default)]
struct Safe {
    file: [u8; 16],
    next: [u8; 16],
    wrong: u16,
    is_open: bool,
}

impl Application for Safe {
    fn takes_data(&self, [_, ins, ..]: [u8; 4]) -> bool {
        matches!(ins, 0x20 | 0xD6)
    }

    fn carry_out(&mut self, command: Command<'_>, response: &mut Response) -> Status {
        let ([_, ins, _, at], data) = (command.header, command.data);
        let from = usize::from(at).min(16);
        let part = from..16.min(from + command.le + data.len());
        match ins {
            0x20 if self.wrong == 3 => return Status(0x6983),
            0x20 => {
                // it counts at once: a reset before the status does not give a try back
                self.is_open = data == b"1234";
                self.wrong = if self.is_open { 0 } else { self.wrong + 1 };
                return Status([0x9000, 0x63C2, 0x63C1, 0x63C0][usize::from(self.wrong)]);
            }
            0xB0 => response.extend(&self.file[part]),
            0xD6 if !self.is_open => return Status(0x6982),
            0xD6 if part.len() < data.len() => return Status(0x6B00),
            0xD6 => self.next[part].copy_from_slice(data),
            _ => return Status(0x6D00),
        }
        Status(0x9000)
    }

    fn settle(&mut self) {
        self.file = self.next;
    }

    fn reset(&mut self) {
        (self.next, self.is_open) = (self.file, false);
    }
}

fn main() -> Result<(), ReceiveError> {
    let (mut card, mut room) = (OwnCard::new(Safe::default()).expect("memory"), [0; 9]);
    let (verify, update) = (b"\x00\x20\x00\x01\x04", b"\x00\xD6\x00\x00\x03");
    let first = [update, &b"JOE"[..], verify, b"4321", verify, b"1234"];
    let then = [update, &b"JOE"[..], b"\x00\xB0\x00\x00\x03"];
    for bytes in first.iter().chain(&then) {
        card.receive_bytes(bytes)?;
        let sent = card.send_bytes(&mut room).expect("a card");
        println!("{:02X?}", &room[..sent.count]);
    }
    Ok(())
}
