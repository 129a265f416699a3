//! A card of an application of your own.

use crate::card::Card;
use crate::error::{done, shown, told, Error};
use crate::raw::{self, Handle};
use crate::status::Status;
use crate::wiped::{room_for, wipe};
use alloc::vec::Vec;
use core::mem::{forget, zeroed};

/// The most bytes of the data of a [`Command`].
pub const DATA_LIMIT: usize = 255;

/// The most bytes of a [`Response`].
pub const OWN_LIMIT: usize = 4_096;

/// A command that reached an [`OwnCard`], as T=0 shows it, also a whole command. If
/// [`takes_data`](Application::takes_data) was true, it has data, which may be empty, and no Le. If
/// not, it has Le and no data. `data` is a copy that is wiped after the call. `Debug` shows their
/// number.
#[derive(Clone, Copy, PartialEq, Eq, Hash)]
#[non_exhaustive]
pub struct Command<'a> {
    /// CLA, INS, P1 and P2.
    pub header: [u8; 4],
    /// The data, at most [`DATA_LIMIT`] bytes.
    pub data: &'a [u8],
    /// How many bytes the terminal asks for, 1 to 256, or 0 if the command takes data. A header
    /// alone asks for 256.
    pub le: usize,
}

shown! {
    Debug for Command<'_>:
    it => "Command({:02X?}, {} bytes, Le {})", it.header, it.data.len(), it.le
}

/// The data of a response, up to [`OWN_LIMIT`] bytes, which are wiped once the library has them.
/// With more, the call of the card returns [`Error::Argument`], and resets card and application.
pub struct Response {
    room: Vec<u8>,
    count: usize,
}

impl Response {
    /// Adds bytes at the end. Those beyond the limit are only counted.
    pub fn extend(&mut self, bytes: &[u8]) {
        let end = self.count.saturating_add(bytes.len());
        if let Some(room) = self.room.get_mut(self.count..end) {
            room.copy_from_slice(bytes);
        }
        self.count = end;
    }
}

/// What a card of your own does, see [`OwnCard`].
pub trait Application {
    /// Whether data of the terminal follow this header, CLA to P2: at T=0 it does not say (ISO/IEC
    /// 7816-3, 10.3.1). If not, data may come from the card.
    fn takes_data(&self, header: [u8; 4]) -> bool;

    /// Carries out a command. If the response is longer than the terminal asks for, the card
    /// keeps the rest for GET RESPONSE. If a TPDU asks for more, and it is not empty, the card
    /// answers `6CXX`. The status follows the last byte. It is a status word: `6X` except `60`, or
    /// `9X`, and any byte. It is not `61XX` or `6CXX`, which are the card's own.
    fn carry_out(&mut self, command: Command<'_>, response: &mut Response) -> Status;

    /// How many times BWT, 1 to 255, the terminal waits at least before this is asked again, at T=0
    /// WWT for any number. 0, the default, if [`carry_out`](Application::carry_out) may begin.
    ///
    /// Each other number sends one NULL (`60`) at T=0, and S(WTX request) at T=1. So begin the work
    /// at the first call, and wait in each for less time than the terminal does. A terminal at T=1
    /// may drop the command meanwhile, and send another: compare it. A whole TPDU or command needs
    /// no more time, and comes to [`carry_out`](Application::carry_out) alone.
    ///
    /// ```
    #[doc = include_str!("../examples/slow.rs")]
    /// ```
    fn more_time(&mut self, _: Command<'_>) -> u8 {
        0
    }

    /// The last command takes effect, with SW2 of its TPDU, also if that is `61XX` or `6CXX`. A
    /// whole command takes effect when it is carried out.
    fn settle(&mut self) {}

    /// The card is reset. A command that has not settled is dropped: undo it. A panic here aborts
    /// the program if it follows one of the application.
    fn reset(&mut self) {}
}

/// A card of an [`Application`] of your own: you write what a command does. It goes over T=0, by
/// characters and buffers, as whole TPDUs and as whole commands, and over T=1 in a
/// [`CardT1`](crate::CardT1). A command is carried out once, by [`turn`](Card::turn),
/// [`send_bytes`](Card::send_bytes), [`tpdu`](Card::tpdu), [`apdu`](Card::apdu), their forms with
/// `_into`, or [`CardT1::block_into`](crate::CardT1::block_into): that is tested, not proved. A
/// command that was dropped and is sent again is another one. The card itself answers GET
/// RESPONSE, the same header with the P3 that `6CXX` names, INS `6X` and `9X` (of `apdu`
/// [`Error::InvalidIns`]), and with `6700` [wrong whole commands](Card::apdu).
///
/// A panic of the application, or an error after it was called, resets the card and the
/// application. It is [`Error::Argument`] for a status or a length that no application may
/// return, [`Error::Memory`], or of `tpdu` [`Error::WantsData`] or [`Error::SendsData`].
/// [`Error::Buffer`] of `CardT1::block_into` resets neither.
///
/// ```
#[doc = include_str!("../examples/counter.rs")]
/// ```
pub type OwnCard<A> = Card<A>;

/// No application of your own: the library carries out the commands of a card of data objects.
impl Application for () {
    fn takes_data(&self, _: [u8; 4]) -> bool {
        false
    }

    fn carry_out(&mut self, _: Command<'_>, _: &mut Response) -> Status {
        Status(0x6F00)
    }
}

/// What a card keeps for its application.
pub(crate) struct Own<A> {
    application: A,
    response: Response,
    is_settled: bool,
}

impl<A: Application> Own<A> {
    /// With the room for a response.
    pub(crate) fn of(application: A, room: Vec<u8>) -> Own<A> {
        Own {
            application,
            response: Response { room, count: 0 },
            is_settled: true,
        }
    }

    fn clear(&mut self) {
        wipe(&mut self.response.room);
        self.response.count = 0;
    }

    pub(crate) fn was_reset(&mut self) {
        self.clear();
        self.application.reset();
    }
}

/// Resets a card, unless it is forgotten.
struct Resets<'a, A: Application>(&'a mut Card<A>);

impl<A: Application> Drop for Resets<'_, A> {
    fn drop(&mut self) {
        let _ = self.0.reset();
    }
}

impl<A: Application> Card<A> {
    /// Makes a card of an application of your own. It listens for a header at T=0. The application
    /// `()` answers each command that reaches it with `6F00`.
    ///
    /// # Errors
    ///
    /// - [`Error::Memory`]: it ran out. The application is dropped.
    pub fn new(application: A) -> Result<OwnCard<A>, Error> {
        let room = room_for(OWN_LIMIT).ok_or(Error::Memory)?;
        let handle = Handle::<raw::Card>::empty();
        told(handle.galliumtoad_card_own(&[]))?;
        Ok(Card(handle, Own::of(application, room)))
    }

    /// The application of a card of your own; `()` of a card of data objects.
    #[must_use]
    pub fn application(&self) -> &A {
        &self.1.application
    }

    /// The application of a card of your own, to change it between two commands.
    pub fn application_mut(&mut self) -> &mut A {
        &mut self.1.application
    }

    /// Calls a function of the archive until nothing waits for the application, or until that needs
    /// more time, if it `can_wait`.
    #[inline]
    pub(crate) fn run(
        &mut self,
        can_wait: bool,
        mut call: impl FnMut(&Handle<raw::Card>) -> i32,
    ) -> Result<i32, Error> {
        let first = told(call(&self.0));
        if let Err(Error::WantsData | Error::SendsData) = first {
            self.1.was_reset();
        }
        let mut code = first?;
        let resets = Resets(self);
        while let raw::HEADER | raw::COMMAND = code {
            resets.0.ask(code == raw::HEADER, can_wait)?;
            code = match told(call(&resets.0 .0)) {
                // at T=1, with too short a room: the block stays
                Err(Error::Buffer) => raw::BUFFER,
                code => code?,
            };
        }
        resets.0.settle();
        forget(resets);
        told(code)
    }

    /// Asks the application about the header or the command that waits.
    fn ask(&mut self, is_header: bool, can_wait: bool) -> Result<(), Error> {
        // SAFETY: numbers alone, whose bytes may be 0.
        let mut waits = unsafe { zeroed::<raw::Command>() };
        done(self.0.galliumtoad_card_command(&mut waits))?;
        let (own, header) = (&mut self.1, [waits.cla, waits.ins, waits.p1, waits.p2]);
        if is_header {
            let to_card = own.application.takes_data(header);
            return done(self.0.galliumtoad_card_direction(to_card));
        }
        let (data, le) = (&waits.data[..waits.size.into()], waits.le.into());
        let command = Command { header, data, le };
        if can_wait {
            let multiple = own.application.more_time(command);
            if multiple > 0 {
                return done(self.0.galliumtoad_card_more_time(multiple));
            }
        }
        let Status(word) = own.application.carry_out(command, &mut own.response);
        let data = own.response.room.get(..own.response.count);
        let data = data.ok_or(Error::Argument)?;
        done(self.0.galliumtoad_card_respond(data, word))?;
        own.is_settled = false;
        own.clear();
        Ok(())
    }

    /// Has the application settle, if the library has.
    fn settle(&mut self) {
        if !self.1.is_settled && self.0.galliumtoad_card_settled() == 1 {
            self.1.is_settled = true;
            self.1.application.settle();
        }
    }
}
