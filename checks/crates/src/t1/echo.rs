//! A card that sends back each command.

use std::alloc::AllocError;
use t1_core::{Applet, Requests};

/// A card that sends back each command of at most `LIMIT` bytes. To a longer one it responds
/// `6700`. The first, third, fifth and so on wait twice: before the response it asks for 3 times
/// BWT. At each third command it announces IFSC 20.
#[derive(Drop)]
pub struct Echo<const LIMIT: usize> {
    /// The number of commands that it carried out.
    count: usize,
}

impl<const LIMIT: usize> Echo<LIMIT> {
    /// Makes a card that has carried out nothing.
    pub fn new() -> Echo<LIMIT> {
        Echo { count: 0 }
    }

    /// Counts a command, and returns the requests before its response.
    fn requests(&mut self) -> Requests {
        self.count += 1;
        Requests {
            extensions: (self.count % 2 * 2) as u8,
            multiple: 3,
            size: if self.count % 3 == 0 { Some(20) } else { None },
        }
    }
}

impl<const LIMIT: usize> Applet for Echo<LIMIT> {
    const LIMIT: usize = LIMIT;

    // Ghost members must be there. Nothing proves these.
    ghost LIMIT = { LIMIT };

    ghost State = { Unit {0} };

    ghost standing = { λ _. tt };

    ghost Does = { λ _ _ _. Unit {0} };

    ghost Refuses = { λ _ _. Unit {0} };

    fn carry_out(
        &mut self,
        command: &[u8],
        response: &mut Vec<u8>,
    ) -> Result<Requests, AllocError> {
        response.reserve(command.len())?;
        response.clear();
        response.extend_from_slice(command)?;
        Ok(self.requests())
    }

    fn too_long(&mut self, response: &mut Vec<u8>) -> Result<Requests, AllocError> {
        response.clear();
        response.extend_from_slice(&[0x67, 0x00])?;
        Ok(self.requests())
    }
}
