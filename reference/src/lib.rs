//! A second opinion on the gate, written from docs/RULES.md and docs/SCRIPT.md alone.
//!
//! Everything here is as plain as it can be. Nothing is remembered of a message that is half there: whenever bytes come, all bytes so far of the request or
//! response in hand are read again from the start.

pub mod body;
pub mod bytes;
pub mod explain;
pub mod gate;
pub mod head;
pub mod request;
pub mod response;
pub mod rules;
pub mod script;

pub mod generate;
pub mod random;
pub mod shrink;

/// Why a read found no whole message.
#[derive(Clone, Copy, Debug, PartialEq, Eq)]
pub enum Stop {
    /// More bytes are wanted.
    More,
    /// There is a fault, of this number and at this place.
    Fault { number: u8, place: usize },
}

pub fn fault<T>(number: u8, place: usize) -> Result<T, Stop> {
    Err(Stop::Fault { number, place })
}
