//! What a card holds, alone or in a session.

use crate::card::{Card, Entry, AID_LIMIT};
use crate::raw::{self, copied};
use crate::session::Session;
use alloc::vec;
use alloc::vec::Vec;

/// Adds the tables of its card to a type, over the functions of the archive for its handles.
macro_rules! tables {
    ($of:ident, $selected:ident, $app_at:ident, $entry_at:ident) => {
        impl $of {
            /// Returns the identifier of the selected application, or `None` if none is selected.
            #[must_use]
            pub fn selected(&self) -> Option<Vec<u8>> {
                aid(|to, n| self.0.$selected(to, n))
            }

            /// Returns the identifiers of the card's applications, in the order of building.
            pub fn apps(&self) -> impl Iterator<Item = Vec<u8>> + '_ {
                (0..).map_while(move |app| aid(|to, n| self.0.$app_at(app, to, n)))
            }

            /// Returns the place of the application with this identifier, from 0, for
            /// [`entries`](Self::entries). `None` if the card has no such application.
            #[must_use]
            pub fn place_of(&self, aid: &[u8]) -> Option<usize> {
                self.apps().position(|it| it == aid)
            }

            /// Returns the data objects of the application at this place, from 0, in order of first
            /// storing. It yields nothing if `app` is past the last.
            pub fn entries(&self, app: usize) -> impl Iterator<Item = Entry> + '_ {
                (0..).map_while(move |at| {
                    entry(|tag, locked, value, n| self.0.$entry_at(app, at, tag, locked, value, n))
                })
            }
        }
    };
}

tables! {
    Card, galliumtoad_card_selected, galliumtoad_card_app_at, galliumtoad_card_entry_at
}
tables! {
    Session, galliumtoad_session_selected, galliumtoad_session_app_at, galliumtoad_session_entry_at
}

fn aid(copies: impl FnOnce(&mut [u8], &mut usize) -> i32) -> Option<Vec<u8>> {
    copied::<AID_LIMIT>(copies).map(|it| it.to_vec())
}

/// An object, whose value takes no more memory than it needs. `copies` writes tag, lock, value and
/// how many bytes the value has.
fn entry(copies: impl Fn(&mut u32, &mut i32, &mut [u8], &mut usize) -> i32) -> Option<Entry> {
    let (mut tag, mut locked, mut value, mut n) = (0, 0, Vec::new(), 0);
    let mut code = copies(&mut tag, &mut locked, &mut value, &mut n);
    if code == raw::BUFFER {
        value = vec![0; n];
        code = copies(&mut tag, &mut locked, &mut value, &mut n);
    }
    let is_locked = locked != 0;
    (code == raw::OK).then_some(Entry {
        tag,
        value,
        is_locked,
    })
}
